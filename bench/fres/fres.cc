// SPDX-License-Identifier: MIT OR Apache-2.0
/* Singular's fres beside the calls of the static library, on problem files, in one process: bench/run-fres compiles and runs it.
 *     fres MS LIMIT FILE..
 * MS: milliseconds for each file, shared by all ways in turns; LIMIT: milliseconds of a processor that the first call of a way may take, which a child makes:
 * a way that takes longer is left out for that file. Prints a line for each file: its name, r, and for each way the shortest of all its calls in microseconds,
 * or `long`, or `refused N`; and last whether fres and the levels, minres and the minimal numbers agree (`levels_are`, `same_numbers`).
 *
 * What each way times (bench/clock.h):
 *     fres        syFrank(elements, n + 1, "complete"): the kernel function behind `fres(G, 0)`; the ring and the elements are there, and what it gives is
 *                 freed outside. It does not test that its input is a Groebner basis.
 *     minres      the same and syMinimize of what it gave, the function behind `minres`: `minres(fres(G, 0))`
 *     read        tagetessash_read: the file's text parsed and its elements accepted as a Groebner basis
 *     hybrid1 ..3, division, tree
 *                 tagetessash_read, then tagetessash_lift of levels 1, 2, .. until one is empty, by this way; the tree with a cache of 4,096 terms
 *     sheet       tagetessash_sheet: parsing, acceptance, all levels, and their text
 *     minimal     tagetessash_minimal: parsing, acceptance, all levels, the minimal Betti numbers as a page */
#include <math.h>
#include <signal.h>
#include <stdio.h>
#include <stdlib.h>
#include <string.h>
#include <sys/time.h>
#include <sys/wait.h>
#include <unistd.h>
#include <string>
#include <vector>
#include "Singular/libsingular.h"
#include "kernel/GBEngine/syz.h"
#include "../clock.h"
#include "tagetessash.h"

static uint16_t state[TAGETESSASH_STATE_WORDS], work[TAGETESSASH_TREE_WORK_WORDS], cache[4096 * TAGETESSASH_ROW_WORDS];
static uint8_t out[TAGETESSASH_PAGE_BYTES];

enum way { FRES, MINRES, READ, HYBRID1, HYBRID2, HYBRID3, DIVISION, TREE, SHEET, MINIMAL, WAYS };
static const char *const names[WAYS] = {"fres", "minres", "read", "hybrid1", "hybrid2", "hybrid3", "division", "tree", "sheet", "minimal"};

/* in how many turns a file's time is spent */
static const int turns = 5;

static std::vector<uint8_t> file;
static ideal elements;

static void fail(const char *what, const char *name)
{
    fprintf(stderr, "fres: %s: %s\n", name, what);
    exit(2);
}

static void load(const char *name)
{
    FILE *in = fopen(name, "rb");
    int c;
    if (in == NULL) fail("can not be read", name);
    file.clear();
    while ((c = getc(in)) != EOF) file.push_back((uint8_t)c);
    fclose(in);
}

/* The numbers of the line that begins at `at`, which goes to the next line. */
static std::vector<long> numbers(size_t &at)
{
    std::vector<long> found;
    at++;
    while (at < file.size() && file[at] == ',') {
        long x = 0;
        for (at++; at < file.size() && file[at] >= '0' && file[at] <= '9'; at++) x = 10 * x + (file[at] - '0');
        found.push_back(x);
    }
    while (at < file.size() && file[at] != '\n') at++;
    at++;
    return found;
}

/* A ring as a user makes it, by the interpreter: `ring r = p,(x(1..n)),(lp,C)`. */
static void make_ring(const std::vector<long> &r)
{
    static const char *const orders[] = {"lp", "Dp", "dp"};
    char line[200];
    snprintf(line, sizeof line, "if (defined(R)) { kill R; } ring R = %ld,(x(1..%ld)),(%s,C);return();\n", r[0], r[1], orders[r[2] - 1]);
    if (iiAllStart(NULL, line, BT_proc, 0)) exit(2);
}

/* The file's elements in their sequence, term by term; the file has been accepted, so that it is well formed. Its terms must descend for Singular too. */
static void make_elements(const char *name)
{
    size_t at = 0;
    std::vector<long> ring;
    std::vector<poly> made;
    poly last = NULL;
    while (at < file.size()) {
        char letter = (char)file[at];
        std::vector<long> line = numbers(at);
        if (letter == 'R') {
            ring = line;
            make_ring(ring);
        }
        if (letter != 'T') continue;
        poly term = p_Init(currRing);
        pSetCoeff0(term, n_Init(line[1], currRing->cf));
        for (long x = 1; x <= ring[1]; x++) p_SetExp(term, x, line[2 + x], currRing);
        p_SetComp(term, ring[3] == 1 ? 0 : line[2], currRing);
        p_Setm(term, currRing);
        if ((size_t)line[0] > made.size())
            made.push_back(term);
        else {
            if (p_LmCmp(last, term, currRing) != 1) fail("its terms do not descend in Singular's order", name);
            pNext(last) = term;
        }
        last = term;
    }
    elements = idInit((int)made.size(), ring[3]);
    for (size_t i = 0; i < made.size(); i++) elements->m[i] = made[i];
}

static uint16_t read_file(void)
{
    size_t place;
    return tagetessash_read(file.data(), file.size(), state, TAGETESSASH_STATE_WORDS, work, TAGETESSASH_WORK_WORDS, &place);
}

static uint16_t lift_all(uint16_t by, uint16_t pick)
{
    size_t place, words = by == TAGETESSASH_TREE ? TAGETESSASH_TREE_WORK_WORDS : TAGETESSASH_WORK_WORDS;
    size_t cached = by == TAGETESSASH_TREE ? sizeof cache / sizeof *cache : 0;
    uint16_t number = read_file();
    for (size_t level = 1; number == TAGETESSASH_DONE && level <= TAGETESSASH_HIGHEST_LEVEL; level++) {
        number = tagetessash_lift(state, TAGETESSASH_STATE_WORDS, work, words, cache, cached, level, by, pick, &place);
        if (tagetessash_count(state, level) == 0) break;
    }
    return number;
}

/* The number of the X line at the end of a sheet, or of a page that begins with one; 0 without. */
static uint16_t refused(size_t length)
{
    size_t at = length;
    if (length != 0 && out[0] == 'X') return (uint16_t)atoi((char *)out + 2);
    while (at > 1 && out[at - 2] != '\n') at--;
    return length != 0 && at > 0 && out[at - 1] == 'X' ? (uint16_t)atoi((char *)out + at + 1) : 0;
}

static size_t length;

/* One call: 0, or by which number it is refused. `took` is its time in microseconds; freeing and reading the text of an answer are no part of it. */
static uint16_t call(way w, double *took)
{
    uint16_t number = 0;
    syStrategy r = NULL, m = NULL;
    moment began = start();
    switch (w) {
    case FRES: r = syFrank(elements, currRing->N + 1, "complete"); break;
    case MINRES:
        r = syFrank(elements, currRing->N + 1, "complete");
        m = syMinimize(r);
        break;
    case READ: number = read_file(); break;
    case HYBRID1: number = lift_all(TAGETESSASH_HYBRID, TAGETESSASH_GREATEST); break;
    case HYBRID2: number = lift_all(TAGETESSASH_HYBRID, TAGETESSASH_NEWEST); break;
    case HYBRID3: number = lift_all(TAGETESSASH_HYBRID, TAGETESSASH_OLDEST); break;
    case DIVISION: number = lift_all(TAGETESSASH_DIVISION, 0); break;
    case TREE: number = lift_all(TAGETESSASH_TREE, 0); break;
    case SHEET:
        tagetessash_sheet(
            file.data(), file.size(), state, TAGETESSASH_STATE_WORDS, work, TAGETESSASH_WORK_WORDS, out, TAGETESSASH_SHEET_BYTES, &length);
        break;
    case MINIMAL:
        tagetessash_minimal(file.data(), file.size(), state, TAGETESSASH_STATE_WORDS, work, TAGETESSASH_WORK_WORDS, out, TAGETESSASH_PAGE_BYTES, &length);
        break;
    default: break;
    }
    *took = since(began);
    if (w == SHEET || w == MINIMAL) number = refused(length);
    /* syMinimize gives its argument back, with one owner more */
    if (m != NULL) syKillComputation(m, currRing);
    if (r != NULL) syKillComputation(r, currRing);
    return number;
}

/* The first call of a way in a child, which is ended after so many milliseconds of a processor: its number, or -1 where it was. */
static int tried(way w, double limit)
{
    int status;
    pid_t child = fork();
    if (child < 0) exit(2);
    if (child == 0) {
        struct itimerval timer = {{0, 0}, {(time_t)(limit / 1e3), (suseconds_t)(1e3 * fmod(limit, 1e3)) + 1}};
        double took;
        signal(SIGPROF, SIG_DFL);
        setitimer(ITIMER_PROF, &timer, NULL);
        _exit(call(w, &took));
    }
    if (waitpid(child, &status, 0) < 0) exit(2);
    if (WIFSIGNALED(status) && WTERMSIG(status) == SIGPROF) return -1;
    if (!WIFEXITED(status)) exit(2);
    return WEXITSTATUS(status);
}

/* How many generators a module of a resolution has, and how many terms. */
static size_t generators(resolvente res, int length, int level, size_t *terms)
{
    size_t found = 0;
    *terms = 0;
    for (int i = 0; level < length && res[level] != NULL && i < IDELEMS(res[level]); i++) {
        found += res[level]->m[i] != NULL;
        *terms += (size_t)pLength(res[level]->m[i]);
    }
    return found;
}

/* `same` where fres has as many vectors as each level and as many terms in them, `terms` where it has other numbers of terms, `vectors` where it has other
 * numbers of vectors. */
static const char *levels_are(void)
{
    const char *are = lift_all(TAGETESSASH_HYBRID, TAGETESSASH_GREATEST) == TAGETESSASH_DONE ? "same" : "vectors";
    syStrategy r = syFrank(elements, currRing->N + 1, "complete");
    for (int level = 1; level <= TAGETESSASH_HIGHEST_LEVEL; level++) {
        size_t terms, found = generators(r->fullres, r->length, level, &terms);
        if (found != tagetessash_count(state, (size_t)level)) are = "vectors";
        if (terms != tagetessash_level_terms(state, (size_t)level) && *are == 's') are = "terms";
    }
    syKillComputation(r, currRing);
    return are;
}

/* Whether minres has as many generators as the page's last line says of columns 2 on; the elements themselves it does not thin out. */
static bool same_numbers(void)
{
    bool same = true;
    tagetessash_minimal(file.data(), file.size(), state, TAGETESSASH_STATE_WORDS, work, TAGETESSASH_WORK_WORDS, out, TAGETESSASH_PAGE_BYTES, &length);
    syStrategy r = syFrank(elements, currRing->N + 1, "complete");
    syMinimize(r);
    for (int column = 2; same && column < TAGETESSASH_PAGE_COLUMNS; column++) {
        char cell[TAGETESSASH_PAGE_CELL_BYTES + 1] = "";
        size_t terms;
        memcpy(cell, out + length - TAGETESSASH_PAGE_LINE_BYTES + TAGETESSASH_PAGE_CELL_BYTES * (column + 1), TAGETESSASH_PAGE_CELL_BYTES);
        same = generators(r->minres, r->length, column - 1, &terms) == (size_t)atoi(cell);
    }
    syKillComputation(r, currRing);
    syKillComputation(r, currRing);
    return same;
}

static void measure(const char *name, double budget, double limit)
{
    double best[WAYS];
    int answer[WAYS];
    load(name);
    const char *base = strrchr(name, '/');
    std::string shown = base == NULL ? name : base + 1;
    if (shown.size() > 4 && shown.compare(shown.size() - 4, 4, ".txt") == 0) shown.resize(shown.size() - 4);
    int read = tried(READ, limit);
    if (read != 0) {
        printf("%s,0", shown.c_str());
        for (int w = 0; w < WAYS; w++) printf(read < 0 ? ",long" : ",refused %d", read);
        printf(",-,-\n");
        return;
    }
    make_elements(name);
    for (int w = 0; w < WAYS; w++) {
        answer[w] = tried((way)w, limit);
        best[w] = 1e18;
    }
    double slice = budget * 1e3 / (turns * WAYS);
    for (int turn = 0; turn < turns; turn++)
        for (int w = 0; w < WAYS; w++) {
            double end = now() + slice, took;
            if (answer[w] != 0) continue;
            do {
                call((way)w, &took);
                if (took < best[w]) best[w] = took;
            } while (now() < end);
        }
    printf("%s,%d", shown.c_str(), IDELEMS(elements));
    for (int w = 0; w < WAYS; w++)
        if (answer[w] == 0)
            printf(",%.2f", best[w]);
        else
            printf(answer[w] < 0 ? ",long" : ",refused %d", answer[w]);
    bool levels = answer[FRES] == 0 && answer[HYBRID1] == 0, minimal = answer[MINRES] == 0 && answer[MINIMAL] == 0;
    printf(",%s,%s\n", !levels ? "-" : levels_are(), !minimal ? "-" : same_numbers() ? "same" : "other");
    fflush(stdout);
    idDelete(&elements);
}

int main(int count, char **words)
{
    if (count < 4) {
        fprintf(stderr, "usage: fres MS LIMIT FILE..\n");
        return 2;
    }
    if (tagetessash_version() != TAGETESSASH_VERSION) fail("the library is of another version than the header", words[0]);
    siInit((char *)SINGULAR_LIBRARY);
    printf("file,r");
    for (int w = 0; w < WAYS; w++) printf(",%s", names[w]);
    printf(",levels,numbers\n");
    fflush(stdout);
    for (int i = 3; i < count; i++) measure(words[i], atof(words[1]), atof(words[2]));
    return 0;
}

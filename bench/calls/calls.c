/* SPDX-License-Identifier: MIT OR Apache-2.0 */
/* Every call on one file, each by itself again and again: a line for each with its name and its shortest time in microseconds. Arguments: the file,
 * milliseconds for all of it, milliseconds of a processor that one call may take: a call that takes longer is left out, and so are those that need what it
 * gives. A refused call is timed like any other. Names: read; hybrid1:k, hybrid2:k, hybrid3:k, division:k, tree:k (a cache of 4,096 terms) for lifting level k
 * over levels by the same way; sheet, betti, minimal, hilbert, bidegrees. */
#include <setjmp.h>
#include <signal.h>
#include <stdio.h>
#include <stdlib.h>
#include <sys/time.h>
#include "../clock.h"
#include "tagetessash.h"

/* how many calls there are at the most: read, five ways, nine levels, five that print */
#define CALLS 51

static uint16_t state[TAGETESSASH_STATE_WORDS], work[TAGETESSASH_TREE_WORK_WORDS], cache[4096 * TAGETESSASH_ROW_WORDS];
static uint8_t out[TAGETESSASH_PAGE_BYTES];
static uint8_t *file;
static size_t bytes, length, place;

typedef uint16_t print(const uint8_t *, size_t, uint16_t *, size_t, uint16_t *, size_t, uint8_t *, size_t, size_t *);

static const struct {
    const char *name;
    uint16_t way, pick;
} ways[] = {
    {"hybrid1", TAGETESSASH_HYBRID, TAGETESSASH_GREATEST},
    {"hybrid2", TAGETESSASH_HYBRID, TAGETESSASH_NEWEST},
    {"hybrid3", TAGETESSASH_HYBRID, TAGETESSASH_OLDEST},
    {"division", TAGETESSASH_DIVISION, 0},
    {"tree", TAGETESSASH_TREE, 0},
};

static const struct {
    const char *name;
    print *call;
} prints[] = {
    {"sheet", tagetessash_sheet},
    {"betti", tagetessash_betti},
    {"minimal", tagetessash_minimal},
    {"hilbert", tagetessash_hilbert},
    {"bidegrees", tagetessash_bidegrees},
};

static uint16_t read_file(void)
{
    return tagetessash_read(file, bytes, state, TAGETESSASH_STATE_WORDS, work, TAGETESSASH_WORK_WORDS, &place);
}

static uint16_t lift(size_t way, size_t level)
{
    int tree = ways[way].way == TAGETESSASH_TREE;
    return tagetessash_lift(state, TAGETESSASH_STATE_WORDS, work, tree ? TAGETESSASH_TREE_WORK_WORDS : TAGETESSASH_WORK_WORDS, cache,
        tree ? sizeof cache / sizeof *cache : 0, level, ways[way].way, ways[way].pick, &place);
}

/* The library holds nothing between calls, so that a call that takes too long can be left in its middle. */
static sigjmp_buf before;

static void leave(int signal)
{
    (void)signal;
    siglongjmp(before, 1);
}

static void limit(double ms)
{
    struct itimerval timer = {{0, 0}, {(time_t)(ms / 1e3), (suseconds_t)(1e3 * (ms - 1e3 * (double)(time_t)(ms / 1e3)))}};
    setitimer(ITIMER_PROF, &timer, NULL);
}

/* what: 0 read, 1 lift, 2 print */
static uint16_t once(int what, size_t which, size_t level)
{
    if (what == 0) return read_file();
    if (what == 1) return lift(which, level);
    return prints[which].call(
        file, bytes, state, TAGETESSASH_STATE_WORDS, work, TAGETESSASH_WORK_WORDS, out, TAGETESSASH_PAGE_BYTES, &length);
}

/* The number of the first call and the shortest time of all; -1 where the first one takes too long. A refused lift leaves nothing to lift again: one call. */
static int timed(int what, size_t which, size_t level, double slice, double most, double *best)
{
    double took, end;
    moment began;
    uint16_t number;
    if (sigsetjmp(before, 1)) return -1;
    limit(most);
    began = start();
    number = once(what, which, level);
    *best = since(began);
    limit(0);
    end = now() + slice;
    while (now() < end && (what != 1 || number == TAGETESSASH_DONE)) {
        began = start();
        once(what, which, level);
        took = since(began);
        if (took < *best) *best = took;
    }
    return number;
}

int main(int count, char **words)
{
    FILE *in = count == 4 ? fopen(words[1], "rb") : NULL;
    double slice, most, best;
    size_t way, level, i;
    int number;
    if (in == NULL || fseek(in, 0, SEEK_END) != 0) return 2;
    bytes = (size_t)ftell(in);
    file = malloc(bytes + 1);
    rewind(in);
    if (file == NULL || fread(file, 1, bytes, in) != bytes) return 2;
    fclose(in);
    if (tagetessash_version() != TAGETESSASH_VERSION) {
        fprintf(stderr, "calls: the library has version %d, the header %d\n", tagetessash_version(), TAGETESSASH_VERSION);
        return 2;
    }
    signal(SIGPROF, leave);
    slice = atof(words[2]) * 1e3 / CALLS;
    most = atof(words[3]);
    number = timed(0, 0, 0, slice, most, &best);
    if (number < 0) return 0;
    printf("read %.2f\n", best);
    for (way = 0; number == TAGETESSASH_DONE && way < sizeof ways / sizeof *ways; way++) {
        int lifted = read_file();
        for (level = 1; lifted == TAGETESSASH_DONE && level <= TAGETESSASH_HIGHEST_LEVEL; level++) {
            lifted = timed(1, way, level, slice, most, &best);
            if (lifted >= 0) printf("%s:%zu %.2f\n", ways[way].name, level, best);
            if (lifted == TAGETESSASH_DONE && tagetessash_count(state, level) == 0) break;
        }
    }
    for (i = 0; i < sizeof prints / sizeof *prints; i++)
        if (timed(2, i, 0, slice, most, &best) >= 0) printf("%s %.2f\n", prints[i].name, best);
    free(file);
    return 0;
}

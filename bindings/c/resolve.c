/* SPDX-License-Identifier: MIT OR Apache-2.0 */
/* Resolves a problem file by all three ways, or by one: how many vectors and terms each level has, the vectors and degrees if asked, and whether the ways
 * agree.
 *
 *     resolve [-v] [-d] [-w WAY] [-c TERMS] [-r TERMS] FILE
 *
 *     -v          prints the vectors too, as the sheet does, after the first way that lifts a level
 *     -d          prints the degrees too, of the components and of each level's vectors in their sequence
 *     -w WAY      division, greatest, newest, oldest (hybrid by that term) or tree; without it division, greatest and tree
 *     -c TERMS    the tree's cache has so many terms, 4,096 without it
 *     -r TERMS    hybrid's work area has room for so many terms, 32 or more, 512 without it
 *
 * Exits with 0 if the basis is accepted and the ways agree as far as they go (one way alone must go to the end), with 1 if the file is refused or they do not
 * agree, with 2 if it is used wrongly. */
#include <stdio.h>
#include <stdlib.h>
#include <string.h>
#include "tagetessash.h"

#define LEVELS (TAGETESSASH_HIGHEST_LEVEL + 1)

/* The vectors of a level as they were fetched, one after the other. */
typedef struct {
    int there;
    size_t vectors;
    size_t words;
    uint16_t *rows;
} fetched;

/* a way's name on the command line, what is printed for it, the call's codes, and whether it is taken when none is named */
typedef struct {
    const char *name, *heading;
    uint16_t way, pick;
    int usual;
} a_way;

static const a_way ways[] = {
    { "division", "division", TAGETESSASH_DIVISION, 0, 1 },
    { "greatest", "hybrid, greatest term first", TAGETESSASH_HYBRID, TAGETESSASH_GREATEST, 1 },
    { "newest", "hybrid, newest term first", TAGETESSASH_HYBRID, TAGETESSASH_NEWEST, 0 },
    { "oldest", "hybrid, oldest term first", TAGETESSASH_HYBRID, TAGETESSASH_OLDEST, 0 },
    { "tree", "tree with a cache", TAGETESSASH_TREE, 0, 1 },
};
#define WAYS (sizeof ways / sizeof *ways)
#define CACHE_TERMS 4096

/* Of exactly this length, so that a memory checker sees a word too many. */
static uint16_t *words(size_t count)
{
    uint16_t *buffer = malloc(count == 0 ? 1 : count * sizeof *buffer);
    if (buffer == NULL) {
        fprintf(stderr, "resolve: no memory\n");
        exit(2);
    }
    return buffer;
}

static uint8_t *read_whole(const char *name, size_t *bytes)
{
    FILE *in = fopen(name, "rb");
    uint8_t *file = NULL;
    size_t room = 0;
    int c;
    *bytes = 0;
    if (in == NULL) {
        perror(name);
        exit(2);
    }
    while ((c = getc(in)) != EOF) {
        if (*bytes == room) {
            room = room == 0 ? 4096 : 2 * room;
            file = realloc(file, room);
            if (file == NULL)
                exit(2);
        }
        file[(*bytes)++] = (uint8_t)c;
    }
    if (ferror(in)) {
        perror(name);
        exit(2);
    }
    fclose(in);
    /* to its very length; a file without bytes is null and 0 */
    if (file != NULL) {
        uint8_t *exact = realloc(file, *bytes);
        if (exact != NULL)
            file = exact;
    }
    return file;
}

static void say_refusal(uint16_t number, size_t place)
{
    const char *name = tagetessash_place_name(number);
    if (name == NULL)
        printf("  refused %d: %s\n", number, tagetessash_meaning(number));
    else
        printf("  refused %d at %s %zu: %s\n", number, name, place, tagetessash_meaning(number));
}

static void say_level(const uint16_t *state, size_t level)
{
    printf("  level %zu: %s %zu, terms %zu\n", level, level == 0 ? "elements" : "vectors", tagetessash_count(state, level),
        tagetessash_level_terms(state, level));
}

static void say_degrees(const uint16_t *state, size_t level)
{
    size_t i;
    if (level == 0) {
        printf("    degrees of the components:");
        for (i = 1; i <= tagetessash_components(state); i++)
            printf(" %d", tagetessash_component_degree(state, i));
        printf("\n");
    }
    printf("    degrees:");
    for (i = 1; i <= tagetessash_count(state, level); i++)
        printf(" %d", tagetessash_degree(state, level, i));
    printf("\n");
}

static void say_term(const tagetessash_term *term, size_t variables)
{
    size_t x;
    printf("    %d of component %d, exponents", term->coefficient, term->component);
    for (x = 0; x < variables; x++)
        printf(" %d", term->exponents[x]);
    printf("\n");
}

/* All vectors of a complete level, by fetching. */
static fetched fetch_level(const uint16_t *state, uint16_t *out, size_t level)
{
    fetched all;
    size_t v, place;
    all.there = 1;
    all.vectors = tagetessash_count(state, level);
    all.words = 0;
    all.rows = words(tagetessash_level_terms(state, level) * TAGETESSASH_ROW_WORDS);
    for (v = 1; v <= all.vectors; v++) {
        size_t here;
        uint16_t number = tagetessash_fetch(state, TAGETESSASH_STATE_WORDS, out, TAGETESSASH_OUT_WORDS, level, v, &place);
        if (number != TAGETESSASH_DONE) {
            say_refusal(number, place);
            exit(1);
        }
        here = tagetessash_row_count(out, TAGETESSASH_OUT_WORDS) * TAGETESSASH_ROW_WORDS;
        if (here != tagetessash_terms(state, level, v) * TAGETESSASH_ROW_WORDS) {
            printf("  vector %zu of level %zu was fetched with another number of terms\n", v, level);
            exit(1);
        }
        memcpy(all.rows + all.words, out, here * sizeof *out);
        all.words += here;
    }
    return all;
}

/* The vectors of a level as lines of the sheet. */
static void say_vectors(const uint16_t *state, size_t level, const fetched *all)
{
    size_t v, t, x, row = 0;
    for (v = 1; v <= all->vectors; v++) {
        for (t = 0; t < tagetessash_terms(state, level, v); t++, row++) {
            tagetessash_term term = tagetessash_row(all->rows, row);
            printf("S,%zu,%zu,%d,%d", level, v, term.coefficient, term.component);
            for (x = 0; x < tagetessash_variables(state); x++)
                printf(",%d", term.exponents[x]);
            printf("\n");
        }
    }
}

/* The words that so many terms take, as they are said on the command line; 0 where it says no number. */
static int words_said(const char *said, size_t *count)
{
    char *end;
    size_t terms = strtoul(said, &end, 10);
    *count = terms * TAGETESSASH_ROW_WORDS;
    return *end == 0 && end != said && said[0] != '-' && terms <= SIZE_MAX / sizeof(uint16_t) / TAGETESSASH_ROW_WORDS;
}

static int usage(void)
{
    fprintf(stderr, "resolve [-v] [-d] [-w division|greatest|newest|oldest|tree] [-c TERMS] [-r TERMS] FILE\n");
    return 2;
}

int main(int arguments, char **argument)
{
    size_t file_bytes, place, level, w, only = WAYS, cache_words = CACHE_TERMS * TAGETESSASH_ROW_WORDS, room_words = TAGETESSASH_WORK_WORDS;
    const char *name = NULL;
    uint8_t *file;
    uint16_t *state, *out, *cache, number;
    fetched first[LEVELS];
    int agree = 1, whole = 1, read = 1, vectors = 0, degrees = 0, a;

    for (a = 1; a < arguments; a++) {
        if (strcmp(argument[a], "-v") == 0)
            vectors = 1;
        else if (strcmp(argument[a], "-d") == 0)
            degrees = 1;
        else if (strcmp(argument[a], "-w") == 0 && a + 1 < arguments) {
            a++;
            for (only = 0; only < WAYS && strcmp(ways[only].name, argument[a]) != 0; only++)
                ;
            if (only == WAYS)
                return usage();
        } else if (strcmp(argument[a], "-c") == 0 && a + 1 < arguments) {
            if (!words_said(argument[++a], &cache_words))
                return usage();
        } else if (strcmp(argument[a], "-r") == 0 && a + 1 < arguments) {
            if (!words_said(argument[++a], &room_words))
                return usage();
        } else if (argument[a][0] != '-' && name == NULL)
            name = argument[a];
        else
            return usage();
    }
    if (name == NULL)
        return usage();
    if (tagetessash_version() != TAGETESSASH_VERSION) {
        fprintf(stderr, "resolve: the library has version %d, the header %d\n", tagetessash_version(), TAGETESSASH_VERSION);
        return 2;
    }
    file = read_whole(name, &file_bytes);
    state = words(TAGETESSASH_STATE_WORDS);
    out = words(TAGETESSASH_OUT_WORDS);
    cache = cache_words == 0 ? NULL : words(cache_words);
    memset(first, 0, sizeof first);

    for (w = 0; w < WAYS && read; w++) {
        size_t work_words = TAGETESSASH_WORK_WORDS;
        uint16_t *work;

        if (only == WAYS ? !ways[w].usual : w != only)
            continue;
        work = words(work_words);
        printf("%s\n", ways[w].heading);
        number = tagetessash_read(file, file_bytes, state, TAGETESSASH_STATE_WORDS, work, work_words, &place);
        if (number != TAGETESSASH_DONE) {
            say_refusal(number, place);
            if (number == TAGETESSASH_NO_BASIS) {
                size_t terms = tagetessash_row_count(work, work_words);
                tagetessash_term leading = tagetessash_row(work, 0);
                printf("  division stops at a value, terms %zu, the leading one\n", terms);
                say_term(&leading, TAGETESSASH_VARIABLES);
            }
            free(work);
            read = 0;
            break;
        }
        say_level(state, 0);
        if (degrees)
            say_degrees(state, 0);
        /* to lift it may be another length than to read */
        if (ways[w].way != TAGETESSASH_DIVISION) {
            free(work);
            work_words = ways[w].way == TAGETESSASH_TREE ? TAGETESSASH_TREE_WORK_WORDS : room_words;
            work = words(work_words);
        }
        for (level = 1; level <= TAGETESSASH_HIGHEST_LEVEL; level++) {
            fetched now;
            number = tagetessash_lift(
                state, TAGETESSASH_STATE_WORDS, work, work_words, cache, cache_words, level, ways[w].way, ways[w].pick, &place);
            if (number != TAGETESSASH_DONE) {
                say_refusal(number, place);
                whole = 0;
                break;
            }
            say_level(state, level);
            if (degrees)
                say_degrees(state, level);
            now = fetch_level(state, out, level);
            if (!first[level].there) {
                first[level] = now;
                if (vectors)
                    say_vectors(state, level, &now);
            } else {
                if (now.vectors != first[level].vectors || now.words != first[level].words
                    || memcmp(now.rows, first[level].rows, now.words * sizeof *now.rows) != 0) {
                    printf("  level %zu differs from what another way gave\n", level);
                    agree = 0;
                }
                free(now.rows);
            }
            if (tagetessash_count(state, level) == 0)
                break;
        }
        free(work);
    }
    if (read && only == WAYS)
        printf("the ways %s\n", !agree ? "do not agree" : whole ? "agree" : "agree as far as they go");

    for (level = 0; level < LEVELS; level++)
        free(first[level].rows);
    free(cache);
    free(out);
    free(state);
    free(file);
    return agree && read && (whole || only == WAYS) ? 0 : 1;
}

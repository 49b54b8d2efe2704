/* SPDX-License-Identifier: MIT OR Apache-2.0 */
/* Many lifts side by side: each in a thread of its own, with a state, a work area for few terms and a stack of TAGETESSASH_NARROW_STACK_BYTES of its own.
 *
 *     threads [-t THREADS] [-r TERMS] [-s] FILE..
 *
 *     -t THREADS    so many, 64 without it
 *     -r TERMS      so many terms in each work area, TAGETESSASH_LEAST_TERMS without it
 *     -s            all lend one work area, which they must not: what a tool that looks for races must find
 *
 * Each file is read once. All levels of all files are lifted by hybrid with each pick code, until one is empty or refused, first alone with room for as many
 * terms as are used, then alone with TERMS: number, place and every word of the state must be the same after each lift, or the number is 14 with an empty state
 * (request A11). Then every thread lifts all files by one pick code, beginning with another file than its neighbours, and must get after each lift what was got
 * alone with TERMS. The work area must be zero after each lift that is not refused with 16. Prints how many lifts there were of which kind; exits
 * with 1 where one differs, with 2 if it is used wrongly. */
#define _DEFAULT_SOURCE
#include <pthread.h>
#include <stdio.h>
#include <stdlib.h>
#include <string.h>
#include <sys/mman.h>
#include "tagetessash.h"

#define GUARD 65536
#define PICKS 3
#define STATE_BYTES (TAGETESSASH_STATE_WORDS * sizeof(uint16_t))

/* What lifting one level left. */
typedef struct {
    uint16_t number;
    size_t place;
    uint16_t *state;
} lifted;

/* The levels of one file by one pick code, the first one's first. */
typedef struct {
    size_t count;
    lifted levels[TAGETESSASH_HIGHEST_LEVEL];
} run;

/* A file as it was read, and its levels by each pick code with TERMS. */
typedef struct {
    const char *name;
    uint16_t *state;
    run runs[PICKS];
} problem;

typedef struct {
    size_t index;
    uint16_t *state, *work;
    size_t lifts, other;
    pthread_t thread;
} worker;

static problem *problems;
static size_t files, terms = TAGETESSASH_LEAST_TERMS, work_words;
static int share;
static pthread_barrier_t start;

static void *memory(size_t bytes)
{
    void *here = malloc(bytes);
    if (here == NULL) {
        fprintf(stderr, "threads: no memory\n");
        exit(2);
    }
    return here;
}

static int zero(const uint16_t *words, size_t count)
{
    size_t i;
    for (i = 0; i < count; i++)
        if (words[i] != 0)
            return 0;
    return 1;
}

/* The next level of a state. */
static uint16_t lift(uint16_t *state, uint16_t *work, size_t words, size_t level, size_t pick, size_t *place)
{
    return tagetessash_lift(
        state, TAGETESSASH_STATE_WORDS, work, words, NULL, 0, level, TAGETESSASH_HYBRID, (uint16_t)(TAGETESSASH_GREATEST + pick), place);
}

/* Whether there is no level behind this one. */
static int ended(const uint16_t *state, uint16_t number, size_t level)
{
    return number != TAGETESSASH_DONE || tagetessash_count(state, level) == 0 || level == TAGETESSASH_HIGHEST_LEVEL;
}

/* All levels of a file, alone; work has exactly this length. */
static run alone(const problem *of, size_t pick, size_t words)
{
    uint16_t *work = memory(words * sizeof *work), *state = memory(STATE_BYTES);
    run all;
    lifted now;
    memcpy(state, of->state, STATE_BYTES);
    memset(work, 5, words * sizeof *work);
    all.count = 0;
    do {
        now.number = lift(state, work, words, all.count + 1, pick, &now.place);
        now.state = memory(STATE_BYTES);
        memcpy(now.state, state, STATE_BYTES);
        all.levels[all.count++] = now;
        if (now.number != TAGETESSASH_SHORT_BUFFER && !zero(work, words)) {
            printf("threads: %s: level %zu leaves words in the work area\n", of->name, all.count);
            exit(1);
        }
    } while (!ended(state, now.number, all.count));
    free(state);
    free(work);
    return all;
}

static void forget(run *all)
{
    size_t k;
    for (k = 0; k < all->count; k++)
        free(all->levels[k].state);
}

/* All files by one pick code; what differs from what was got alone is counted. */
static void *work_through(void *given)
{
    worker *own = given;
    size_t f, k, pick = own->index % PICKS, place;
    pthread_barrier_wait(&start);
    for (f = 0; f < files; f++) {
        const problem *of = problems + (own->index + f) % files;
        const run *expected = of->runs + pick;
        memcpy(own->state, of->state, STATE_BYTES);
        for (k = 0; k < expected->count; k++) {
            const lifted *there = expected->levels + k;
            uint16_t number = lift(own->state, own->work, work_words, k + 1, pick, &place);
            own->lifts++;
            /* an area that is shared nobody but the library touches, so that it is the library's accesses that are seen */
            if (number != there->number || place != there->place || memcmp(own->state, there->state, STATE_BYTES) != 0
                || (!share && !zero(own->work, work_words))) {
                own->other++;
                break;
            }
        }
    }
    return NULL;
}

static uint16_t *read_file(const char *name)
{
    static uint8_t file[TAGETESSASH_FILE_BYTES];
    uint16_t *state = memory(STATE_BYTES), *work = memory(TAGETESSASH_WORK_WORDS * sizeof *work);
    FILE *in = fopen(name, "rb");
    size_t bytes, place;
    if (in == NULL) {
        perror(name);
        exit(2);
    }
    bytes = fread(file, 1, sizeof file, in);
    fclose(in);
    if (tagetessash_read(file, bytes, state, TAGETESSASH_STATE_WORDS, work, TAGETESSASH_WORK_WORDS, &place) != TAGETESSASH_DONE) {
        fprintf(stderr, "threads: %s is refused\n", name);
        exit(2);
    }
    free(work);
    return state;
}

/* A thread whose stack ends at a page that may not be touched. */
static void begin(worker *own)
{
    uint8_t *whole = mmap(NULL, GUARD + TAGETESSASH_NARROW_STACK_BYTES, PROT_READ | PROT_WRITE, MAP_PRIVATE | MAP_ANONYMOUS, -1, 0);
    pthread_attr_t how;
    if (whole == MAP_FAILED || mprotect(whole, GUARD, PROT_NONE) != 0 || pthread_attr_init(&how) != 0
        || pthread_attr_setstack(&how, whole + GUARD, TAGETESSASH_NARROW_STACK_BYTES) != 0
        || pthread_create(&own->thread, &how, work_through, own) != 0) {
        fprintf(stderr, "threads: no thread\n");
        exit(2);
    }
    pthread_attr_destroy(&how);
}

static int usage(void)
{
    fprintf(stderr, "threads [-t THREADS] [-r TERMS] [-s] FILE..\n");
    return 2;
}

int main(int arguments, char **argument)
{
    size_t threads = 64, same = 0, fourteen = 0, differ = 0, lifts = 0, other = 0, f, pick, k, t;
    uint16_t *shared = NULL;
    worker *workers;
    int a = 1;
    for (; a < arguments && argument[a][0] == '-'; a++) {
        if (strcmp(argument[a], "-s") == 0)
            share = 1;
        else if (strcmp(argument[a], "-t") == 0 && a + 1 < arguments)
            threads = strtoul(argument[++a], NULL, 10);
        else if (strcmp(argument[a], "-r") == 0 && a + 1 < arguments)
            terms = strtoul(argument[++a], NULL, 10);
        else
            return usage();
    }
    files = (size_t)(arguments - a);
    if (files == 0 || threads == 0 || threads > 1000 || terms == 0 || terms > TAGETESSASH_VECTOR_TERMS)
        return usage();
    if (tagetessash_version() != TAGETESSASH_VERSION)
        return 2;
    work_words = terms * TAGETESSASH_ROW_WORDS;

    problems = memory(files * sizeof *problems);
    for (f = 0; f < files; f++) {
        problems[f].name = argument[a + (int)f];
        problems[f].state = read_file(problems[f].name);
        for (pick = 0; pick < PICKS; pick++) {
            run whole = alone(problems + f, pick, TAGETESSASH_WORK_WORDS), here = alone(problems + f, pick, work_words);
            for (k = 0; k < here.count; k++) {
                const lifted *there = whole.levels + k, *now = here.levels + k;
                if (k < whole.count && now->number == there->number && now->place == there->place && memcmp(now->state, there->state, STATE_BYTES) == 0)
                    same++;
                else if (now->number == TAGETESSASH_TERM_LIMIT && now->place == k + 1 && zero(now->state, TAGETESSASH_STATE_WORDS))
                    fourteen++;
                else {
                    printf("threads: %s: level %zu by pick code %zu with %zu terms answers %d, with %d terms %d, or leaves other words\n", problems[f].name,
                        k + 1, pick + TAGETESSASH_GREATEST, terms, now->number, TAGETESSASH_VECTOR_TERMS, there->number);
                    differ++;
                }
            }
            /* it ends where that with more room does, or with 14 */
            if (here.count != whole.count && here.levels[here.count - 1].number != TAGETESSASH_TERM_LIMIT)
                differ++;
            forget(&whole);
            problems[f].runs[pick] = here;
        }
    }
    printf("alone: %zu files, %zu lifts with %zu terms answer as with %d, every word, %zu are refused with 14, %zu differ\n", files, same, terms,
        TAGETESSASH_VECTOR_TERMS, fourteen, differ);

    if (pthread_barrier_init(&start, NULL, (unsigned)threads) != 0)
        return 2;
    if (share)
        shared = memory(work_words * sizeof *shared);
    workers = memory(threads * sizeof *workers);
    for (t = 0; t < threads; t++) {
        workers[t].index = t;
        workers[t].lifts = workers[t].other = 0;
        workers[t].state = memory(STATE_BYTES);
        workers[t].work = share ? shared : memory(work_words * sizeof *shared);
    }
    for (t = 0; t < threads; t++)
        begin(workers + t);
    for (t = 0; t < threads; t++) {
        pthread_join(workers[t].thread, NULL);
        lifts += workers[t].lifts;
        other += workers[t].other;
        free(workers[t].state);
        if (!share)
            free(workers[t].work);
    }
    printf("side by side: %zu threads, %zu lifts, %zu differ from what was got alone\n", threads, lifts, other);
    free(shared);
    free(workers);
    for (f = 0; f < files; f++) {
        for (pick = 0; pick < PICKS; pick++)
            forget(problems[f].runs + pick);
        free(problems[f].state);
    }
    free(problems);
    return differ != 0 || other != 0;
}

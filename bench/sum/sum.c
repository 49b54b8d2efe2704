/* SPDX-License-Identifier: MIT OR Apache-2.0 */
/* Reading with acceptance and all levels of one file by hybrid with the greatest term, again and again: the median in microseconds, how many terms the levels
 * above 0 have, and a sum over all numbers that the calls gave. Arguments: the file, milliseconds.
 *
 * It is compiled with the headers of other checkouts too: what it takes of a header, that of version 1 has. */
#include <stdio.h>
#include <stdlib.h>
#include <time.h>
#include "tagetessash.h"

/* times of single runs; beyond these the first ones are overwritten */
#define RUNS 100000

static uint16_t state[TAGETESSASH_STATE_WORDS], work[TAGETESSASH_WORK_WORDS];
static double times[RUNS];

static double now(void)
{
    struct timespec t;
    clock_gettime(CLOCK_MONOTONIC, &t);
    return t.tv_sec * 1e6 + t.tv_nsec / 1e3;
}

static int ascending(const void *a, const void *b)
{
    double x = *(const double *)a, y = *(const double *)b;
    return x < y ? -1 : x > y;
}

/* Until a level is empty, or refused: the last number, and its place. */
static uint16_t resolve(const uint8_t *file, size_t bytes, size_t *place)
{
    size_t level;
    uint16_t number = tagetessash_read(file, bytes, state, TAGETESSASH_STATE_WORDS, work, TAGETESSASH_WORK_WORDS, place);
    for (level = 1; number == TAGETESSASH_DONE && level <= TAGETESSASH_HIGHEST_LEVEL; level++) {
        number = tagetessash_lift(
            state, TAGETESSASH_STATE_WORDS, work, TAGETESSASH_WORK_WORDS, NULL, 0, level, TAGETESSASH_HYBRID, TAGETESSASH_GREATEST, place);
        if (tagetessash_count(state, level) == 0)
            break;
    }
    return number;
}

static uint64_t mixed(uint64_t sum, uint64_t number) { return (sum ^ number) * 1099511628211u; }

int main(int count, char **words)
{
    FILE *in = count == 3 ? fopen(words[1], "rb") : NULL;
    size_t bytes, place, level, v, t, x, runs = 0, terms = 0;
    uint64_t sum = 14695981039346656037u;
    uint16_t number;
    uint8_t *file;
    double end;
    if (in == NULL || fseek(in, 0, SEEK_END) != 0)
        return 2;
    bytes = (size_t)ftell(in);
    file = malloc(bytes + 1);
    rewind(in);
    if (file == NULL || fread(file, 1, bytes, in) != bytes)
        return 2;
    fclose(in);
    if (tagetessash_version() != TAGETESSASH_VERSION) {
        fprintf(stderr, "sum: the library has version %d, the header %d\n", tagetessash_version(), TAGETESSASH_VERSION);
        return 2;
    }
    end = now() + atof(words[2]) * 1e3;
    do {
        double began = now();
        number = resolve(file, bytes, &place);
        times[runs++ % RUNS] = now() - began;
    } while (now() < end);
    sum = mixed(mixed(sum, number), place);
    for (level = 0; level < tagetessash_complete(state); level++)
        for (v = 1; v <= tagetessash_count(state, level); v++)
            for (t = 0; t < tagetessash_terms(state, level, v); t++) {
                tagetessash_term term = tagetessash_row(tagetessash_rows(state, level, v), t);
                sum = mixed(mixed(mixed(mixed(sum, level), v), term.coefficient), term.component);
                for (x = 0; x < TAGETESSASH_VARIABLES; x++)
                    sum = mixed(sum, term.exponents[x]);
                terms += level != 0;
            }
    runs = runs < RUNS ? runs : RUNS;
    qsort(times, runs, sizeof *times, ascending);
    printf("%.2f %zu %016llx\n", times[runs / 2], terms, (unsigned long long)sum);
    free(file);
    return 0;
}

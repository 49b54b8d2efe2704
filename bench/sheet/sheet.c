/* SPDX-License-Identifier: MIT OR Apache-2.0 */
/* The sheet of one file by tagetessash_sheet, again and again: the shortest time, in microseconds, and a sum of the bytes. Arguments: the file, milliseconds.
 *
 * It is compiled with the headers of other checkouts too: what it takes of a header, that of version 1 has. */
#include <stdio.h>
#include <stdlib.h>
#include <time.h>
#include "tagetessash.h"

static uint8_t out[TAGETESSASH_SHEET_BYTES];
static uint16_t state[TAGETESSASH_STATE_WORDS], work[TAGETESSASH_WORK_WORDS];

static double now(void)
{
    struct timespec t;
    clock_gettime(CLOCK_MONOTONIC, &t);
    return t.tv_sec * 1e6 + t.tv_nsec / 1e3;
}

int main(int count, char **words)
{
    FILE *in = count == 3 ? fopen(words[1], "rb") : 0;
    if (!in || fseek(in, 0, SEEK_END) != 0) return 2;
    size_t bytes = ftell(in), length = 0;
    uint8_t *file = malloc(bytes + 1);
    rewind(in);
    if (!file || fread(file, 1, bytes, in) != bytes) return 2;
    fclose(in);
    if (tagetessash_version() != TAGETESSASH_VERSION) {
        fprintf(stderr, "sheet: the library has version %d, the header %d\n", tagetessash_version(), TAGETESSASH_VERSION);
        return 2;
    }
    double end = now() + atof(words[2]) * 1e3, best = 1e18;
    do {
        double began = now();
        if (tagetessash_sheet(file, bytes, state, TAGETESSASH_STATE_WORDS, work, TAGETESSASH_WORK_WORDS, out, sizeof out, &length)) return 1;
        double took = now() - began;
        if (took < best) best = took;
    } while (now() < end);
    uint64_t sum = 14695981039346656037u;
    for (size_t i = 0; i < length; i++) sum = (sum ^ out[i]) * 1099511628211u;
    printf("%.1f %zu %016llx\n", best, length, (unsigned long long)sum);
    free(file);
    return 0;
}

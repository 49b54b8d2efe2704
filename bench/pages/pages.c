/* SPDX-License-Identifier: MIT OR Apache-2.0 */
/* The Betti page and the minimal numbers of one file, by tagetessash_betti and tagetessash_minimal in turns: the shortest time of each, in microseconds, their
 * ratio, and the bytes of the page. Arguments: the file, milliseconds. Only its bytes are printed of a file that is refused. */
#include <stdio.h>
#include <stdlib.h>
#include <time.h>
#include "tagetessash.h"

static uint8_t out[TAGETESSASH_PAGE_BYTES];
static uint16_t state[TAGETESSASH_STATE_WORDS], work[TAGETESSASH_WORK_WORDS];

static double now(void)
{
    struct timespec t;
    clock_gettime(CLOCK_MONOTONIC, &t);
    return t.tv_sec * 1e6 + t.tv_nsec / 1e3;
}

typedef uint16_t print(const uint8_t *, size_t, uint16_t *, size_t, uint16_t *, size_t, uint8_t *, size_t, size_t *);

/* One call; the shorter of its time and the shortest so far, which becomes negative where the file is refused. */
static double shorter(print *call, const uint8_t *file, size_t bytes, double best, size_t *length)
{
    double began = now();
    if (call(file, bytes, state, TAGETESSASH_STATE_WORDS, work, TAGETESSASH_WORK_WORDS, out, sizeof out, length)) exit(1);
    double took = now() - began;
    if (out[0] == 'X') return -1;
    return took < best ? took : best;
}

int main(int count, char **words)
{
    FILE *in = count == 3 ? fopen(words[1], "rb") : 0;
    if (!in || fseek(in, 0, SEEK_END) != 0) return 2;
    size_t bytes = ftell(in), length = 0;
    uint8_t *file = malloc(bytes + 1);
    rewind(in);
    if (!file || fread(file, 1, bytes, in) != bytes) return 2;
    fclose(in);
    if (tagetessash_version() != TAGETESSASH_VERSION) return 2;
    double end = now() + atof(words[2]) * 1e3, page = 1e18, numbers = 1e18;
    do {
        page = shorter(tagetessash_betti, file, bytes, page, &length);
        numbers = shorter(tagetessash_minimal, file, bytes, numbers, &length);
    } while (page > 0 && numbers > 0 && now() < end);
    if (page > 0 && numbers > 0) printf("%zu,%.1f,%.1f,%.2f\n", length, page, numbers, numbers / page);
    else printf("%zu,refused\n", length);
    free(file);
    return 0;
}

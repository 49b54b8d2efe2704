/* SPDX-License-Identifier: MIT OR Apache-2.0 */
/* A file completed, by tagetessash_completed again and again: how many elements the completed file has, or the X line, and the shortest time in microseconds.
 * Arguments: the file, milliseconds. */
#include <stdio.h>
#include <stdlib.h>
#include <string.h>
#include "../clock.h"
#include "tagetessash.h"

static uint8_t out[TAGETESSASH_COMPLETED_BYTES + 1];
static uint16_t state[TAGETESSASH_STATE_WORDS], work[TAGETESSASH_WORK_WORDS];

/* the element of the last T line */
static unsigned elements(void)
{
    const char *at = (const char *)out;
    unsigned last = 0;
    while ((at = strstr(at, "\nT,")) != NULL) {
        at += 3;
        last = (unsigned)strtoul(at, NULL, 10);
    }
    return last;
}

int main(int count, char **words)
{
    FILE *in = count == 3 ? fopen(words[1], "rb") : NULL;
    size_t bytes, length;
    double end, best = 1e18;
    uint8_t *file = malloc(TAGETESSASH_FILE_BYTES + 1);
    if (in == NULL || file == NULL || tagetessash_version() != TAGETESSASH_VERSION) return 2;
    bytes = fread(file, 1, TAGETESSASH_FILE_BYTES + 1, in);
    fclose(in);
    end = now() + atof(words[2]) * 1e3;
    do {
        moment began = start();
        double took;
        if (tagetessash_completed(
                file, bytes, state, TAGETESSASH_STATE_WORDS, work, TAGETESSASH_WORK_WORDS, out, TAGETESSASH_COMPLETED_BYTES, &length))
            return 1;
        took = since(began);
        if (took < best) best = took;
    } while (now() < end);
    out[length] = 0;
    if (out[0] == 'X') printf("%.*s %.1f\n", (int)length - 1, (const char *)out, best);
    else printf("%u %.1f\n", elements(), best);
    free(file);
    return 0;
}

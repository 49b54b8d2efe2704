/* SPDX-License-Identifier: MIT OR Apache-2.0 */
/* The reading call and the sheet call on one file: the shortest time of each, in microseconds, and how many times as long the sheet takes. Arguments: the file,
 * milliseconds. It says what reading takes before it calls the sheet, which may not come to its end in reasonable time: bench/run-slow ends it then. */
#include <stdio.h>
#include <stdlib.h>
#include "../clock.h"
#include "tagetessash.h"

static uint8_t out[TAGETESSASH_SHEET_BYTES];
static uint16_t state[TAGETESSASH_STATE_WORDS], work[TAGETESSASH_WORK_WORDS];

int main(int count, char **words)
{
    FILE *in = count == 3 ? fopen(words[1], "rb") : NULL;
    size_t bytes, place, length = 0;
    uint16_t number = 0;
    uint8_t *file;
    double read = 1e18, sheet = 1e18, took, end;
    moment began;
    if (in == NULL || fseek(in, 0, SEEK_END) != 0)
        return 2;
    bytes = (size_t)ftell(in);
    file = malloc(bytes + 1);
    rewind(in);
    if (file == NULL || fread(file, 1, bytes, in) != bytes)
        return 2;
    fclose(in);
    if (tagetessash_version() != TAGETESSASH_VERSION) {
        fprintf(stderr, "slow: the library has version %d, the header %d\n", tagetessash_version(), TAGETESSASH_VERSION);
        return 2;
    }
    end = now() + atof(words[2]) * 1e3;
    do {
        began = start();
        number = tagetessash_read(file, bytes, state, TAGETESSASH_STATE_WORDS, work, TAGETESSASH_WORK_WORDS, &place);
        took = since(began);
        if (took < read)
            read = took;
    } while (now() < end);
    printf("%.1f", read);
    if (number != TAGETESSASH_DONE) {
        printf(" refused with %u\n", number);
        return 2;
    }
    fflush(stdout);
    end = now() + atof(words[2]) * 1e3;
    do {
        began = start();
        if (tagetessash_sheet(file, bytes, state, TAGETESSASH_STATE_WORDS, work, TAGETESSASH_WORK_WORDS, out, sizeof out, &length))
            return 2;
        took = since(began);
        if (took < sheet)
            sheet = took;
    } while (now() < end);
    printf(" %.1f %.1f %zu\n", sheet, sheet / read, length);
    free(file);
    return 0;
}

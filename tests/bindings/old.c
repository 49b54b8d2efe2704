/* SPDX-License-Identifier: MIT OR Apache-2.0 */
/* A program of an old version, TAGETESSASH_VERSION. What it took of that header is written out, since no later header changes a program that is compiled
 * already. Its buffers have that version's lengths. Those of version 1 are long enough still, so that only the version tells; a state of version 2 is too
 * short by the degrees (16). Exits with 0 if the library is of its version, else with 2. */
#include <stddef.h>
#include <stdint.h>
#include <stdio.h>

#if TAGETESSASH_VERSION == 1
#define TAGETESSASH_STATE_WORDS 206095
#define TAGETESSASH_WORK_WORDS 5120
#else
#define TAGETESSASH_STATE_WORDS 124175
#define TAGETESSASH_WORK_WORDS 3072
#endif

uint16_t tagetessash_read(const uint8_t *file, size_t file_bytes, uint16_t *state, size_t state_words, uint16_t *work, size_t work_words, size_t *place);
uint16_t tagetessash_version(void);

static uint16_t state[TAGETESSASH_STATE_WORDS], work[TAGETESSASH_WORK_WORDS];

int main(void)
{
    static const uint8_t file[] = "R,7,2,1,1\nT,1,1,1,1,0\nE,1\n";
    size_t place;
    if (tagetessash_version() != TAGETESSASH_VERSION) {
        uint16_t number = tagetessash_read(file, sizeof file - 1, state, TAGETESSASH_STATE_WORDS, work, TAGETESSASH_WORK_WORDS, &place);
        printf("the library has version %d, the header %d; reading answers %d\n", tagetessash_version(), TAGETESSASH_VERSION, number);
        return 2;
    }
    return 0;
}

/* SPDX-License-Identifier: MIT OR Apache-2.0 */
/* One way on many files, round after round, for bench/run-profile: rounds WAY MS LIMIT FILE.. WAY: read, sheet, minimal, hybrid1, hybrid2, hybrid3, division or
 * tree; MS: milliseconds in all; LIMIT: milliseconds of a processor that one call may take. Each file is read, or lifted to its end, once in each round, so
 * that the time of a profile is spread over the files as in a sum. Files that are refused or pass the limit are left out. Prints how many rounds and files
 * there were. */
#include <setjmp.h>
#include <signal.h>
#include <stdio.h>
#include <stdlib.h>
#include <string.h>
#include <sys/time.h>
#include "../clock.h"
#include "tagetessash.h"

static uint16_t state[TAGETESSASH_STATE_WORDS], work[TAGETESSASH_TREE_WORK_WORDS], cache[4096 * TAGETESSASH_ROW_WORDS];
static uint8_t out[TAGETESSASH_PAGE_BYTES];

static const char *const names[] = {"read", "sheet", "minimal", "hybrid1", "hybrid2", "hybrid3", "division", "tree"};
#define WAYS (sizeof names / sizeof *names)

static uint16_t once(size_t way, const uint8_t *file, size_t bytes)
{
    size_t place, level, length = 0;
    uint16_t number, by = way == 7 ? TAGETESSASH_TREE : way == 6 ? TAGETESSASH_DIVISION : TAGETESSASH_HYBRID;
    if (way == 1 || way == 2) {
        (way == 1 ? tagetessash_sheet : tagetessash_minimal)(
            file, bytes, state, TAGETESSASH_STATE_WORDS, work, TAGETESSASH_WORK_WORDS, out, TAGETESSASH_PAGE_BYTES, &length);
        return out[0] == 'X';
    }
    number = tagetessash_read(file, bytes, state, TAGETESSASH_STATE_WORDS, work, TAGETESSASH_WORK_WORDS, &place);
    for (level = 1; way != 0 && number == TAGETESSASH_DONE && level <= TAGETESSASH_HIGHEST_LEVEL; level++) {
        number = tagetessash_lift(state, TAGETESSASH_STATE_WORDS, work, way == 7 ? TAGETESSASH_TREE_WORK_WORDS : TAGETESSASH_WORK_WORDS, cache,
            way == 7 ? sizeof cache / sizeof *cache : 0, level, by, way >= 3 && way <= 5 ? (uint16_t)(way - 2) : 0, &place);
        if (tagetessash_count(state, level) == 0)
            break;
    }
    return number;
}

/* a call that takes too long is left in its middle: the library holds nothing */
static sigjmp_buf before;

static void leave(int signal)
{
    (void)signal;
    siglongjmp(before, 1);
}

static void limit(long ms)
{
    struct itimerval timer = {{0, 0}, {ms / 1000, 1000 * (ms % 1000)}};
    setitimer(ITIMER_PROF, &timer, NULL);
}

int main(int count, char **words)
{
    static uint8_t *files[1000];
    static size_t bytes[1000];
    static volatile size_t kept = 0;
    size_t way = 0, f;
    long rounds = 0;
    volatile int i;
    double end;
    while (count >= 5 && way < WAYS && strcmp(names[way], words[1]) != 0)
        way++;
    if (count < 5 || way == WAYS || count > 1000)
        return 2;
    signal(SIGPROF, leave);
    for (i = 4; i < count; i++) {
        FILE *in = fopen(words[i], "rb");
        if (in == NULL)
            return 2;
        files[kept] = malloc(TAGETESSASH_FILE_BYTES + 1);
        if (files[kept] == NULL)
            return 2;
        bytes[kept] = fread(files[kept], 1, TAGETESSASH_FILE_BYTES + 1, in);
        fclose(in);
        if (sigsetjmp(before, 1))
            continue;
        limit(atol(words[3]));
        if (once(way, files[kept], bytes[kept]) == TAGETESSASH_DONE) {
            limit(0);
            kept++;
        }
        limit(0);
    }
    end = now() + atof(words[2]) * 1e3;
    for (; now() < end; rounds++)
        for (f = 0; f < kept; f++)
            once(way, files[f], bytes[f]);
    printf("%ld rounds over %zu files\n", rounds, kept);
    return 0;
}

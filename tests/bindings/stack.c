/* SPDX-License-Identifier: MIT OR Apache-2.0 */
/* How much stack each call takes: each runs in a thread whose stack has the bytes that the header says are enough, painted before, looked at after.
 *
 *     stack FILE..            prints the most that each call took, from its caller's frame on and with what the thread has of its own; exits with 1 if one
 *                             took over a KiB more than the header says was measured, or its thread over three quarters of what the header says is enough
 *     stack -b BYTES FILE..   with stacks of so many bytes instead: where these are too few the process dies by a signal, at the guard page below */
#define _DEFAULT_SOURCE
#include <pthread.h>
#include <stdio.h>
#include <stdlib.h>
#include <string.h>
#include <sys/mman.h>
#include "tagetessash.h"

#define GUARD 65536
#define CACHE_WORDS (100000 * TAGETESSASH_ROW_WORDS)

/* A tree as deep as its work area allows (tests/common has how it is made). */
static const char deep[] = "R,7,5,1,2\nT,1,1,2,1,0,0,0,0\nT,1,1,1,0,8,11,244,1\nT,2,1,2,1,0,0,0,0\nT,2,1,1,0,8,11,244,1\nT,3,1,1,0,0,0,0,1\n"
                           "T,3,6,1,0,0,0,0,0\nT,4,1,1,0,0,1,0,0\nT,4,6,1,0,0,0,1,1\nT,4,1,1,0,0,0,1,0\nT,5,1,1,0,1,0,254,0\nT,5,6,1,0,0,254,0,0\nE,11\n";

enum { READ, DIVISION, HYBRID, NARROW, TREE, FETCH, DIVIDE, SHEET, BETTI, MINIMAL, BIDEGREES, HILBERT, MEMBER, COMPLETED, REPLAY, CALLS };
/* what is enough, and the KiB that the header says were measured */
static const struct {
    const char *name;
    size_t enough, kib;
} calls[CALLS] = {
    { "read", TAGETESSASH_LIFT_STACK_BYTES, 127 },
    { "lift by division", TAGETESSASH_LIFT_STACK_BYTES, 171 },
    { "lift by hybrid", TAGETESSASH_LIFT_STACK_BYTES, 171 },
    { "lift by hybrid in the least work area", TAGETESSASH_NARROW_STACK_BYTES, 92 },
    { "lift by the tree", TAGETESSASH_TREE_STACK_BYTES, 3050 },
    { "fetch", TAGETESSASH_NARROW_STACK_BYTES, 6 },
    { "divide", TAGETESSASH_NARROW_STACK_BYTES, 21 },
    { "sheet", TAGETESSASH_STACK_BYTES, 155 },
    { "Betti page", TAGETESSASH_STACK_BYTES, 152 },
    { "minimal numbers", TAGETESSASH_STACK_BYTES, 186 },
    { "bidegrees", TAGETESSASH_STACK_BYTES, 154 },
    { "Hilbert function", TAGETESSASH_STACK_BYTES, 161 },
    { "membership", TAGETESSASH_STACK_BYTES, 139 },
    { "completed file", TAGETESSASH_STACK_BYTES, 127 },
    { "replay", TAGETESSASH_STACK_BYTES, 171 },
};

static uint8_t file[TAGETESSASH_FILE_BYTES], sheet[TAGETESSASH_SHEET_BYTES], page[TAGETESSASH_PAGE_BYTES], lines[TAGETESSASH_BIDEGREES_BYTES],
    values[TAGETESSASH_HILBERT_BYTES], input[TAGETESSASH_FILE_BYTES + 200], division[TAGETESSASH_MEMBER_BYTES],
    completed[TAGETESSASH_COMPLETED_BYTES], log_of[TAGETESSASH_FILE_BYTES + 200], replayed[TAGETESSASH_REPLAY_BYTES];
static size_t file_bytes, input_bytes, log_bytes, vector_words, level, place;
static uint16_t state[TAGETESSASH_STATE_WORDS], work[TAGETESSASH_TREE_WORK_WORDS], cache[CACHE_WORDS], out[TAGETESSASH_OUT_WORDS];
static uint16_t vector[TAGETESSASH_OUT_WORDS], remainder[TAGETESSASH_OUT_WORDS];
static uint16_t number;
static int call;
static const uint8_t *frame;

static uint16_t lift(size_t work_words, uint16_t way)
{
    return tagetessash_lift(state, TAGETESSASH_STATE_WORDS, work, work_words, cache, CACHE_WORDS, level, way, TAGETESSASH_GREATEST, &place);
}

/* The first element as a vector to be divided: rows of the state, as far as there is room, and its first T line as a V line behind the file. */
static void take_vector(void)
{
    const char *line = memchr(file, '\n', file_bytes);
    while (line != NULL && line[1] != 'T')
        line = memchr(line + 1, '\n', file_bytes - (size_t)(line + 1 - (const char *)file));
    memcpy(input, file, file_bytes);
    input_bytes = file_bytes;
    if (line != NULL) {
        const char *fields = strchr(line + 3, ','), *end = strchr(fields, '\n');
        input[input_bytes++] = 'V';
        memcpy(input + input_bytes, fields, (size_t)(end + 1 - fields));
        input_bytes += (size_t)(end + 1 - fields);
    }
    /* a log of the second level: the first one is lifted, and this one's frame is formed */
    memcpy(log_of, file, file_bytes);
    memcpy(log_of + file_bytes, "L,2,1\n", 6);
    log_bytes = file_bytes + 6;
    vector_words = tagetessash_terms(state, 0, 1) * TAGETESSASH_ROW_WORDS;
    if (vector_words > TAGETESSASH_OUT_WORDS)
        vector_words = TAGETESSASH_OUT_WORDS;
    if (vector_words != 0)
        memcpy(vector, tagetessash_rows(state, 0, 1), vector_words * sizeof *vector);
}

static void *run(void *nothing)
{
    frame = __builtin_frame_address(0);
    switch (call) {
    case READ: number = tagetessash_read(file, file_bytes, state, TAGETESSASH_STATE_WORDS, work, TAGETESSASH_WORK_WORDS, &place); break;
    case DIVISION: number = lift(TAGETESSASH_WORK_WORDS, TAGETESSASH_DIVISION); break;
    case HYBRID: number = lift(TAGETESSASH_WORK_WORDS, TAGETESSASH_HYBRID); break;
    case NARROW: number = lift(TAGETESSASH_LEAST_WORK_WORDS, TAGETESSASH_HYBRID); break;
    case TREE: number = lift(TAGETESSASH_TREE_WORK_WORDS, TAGETESSASH_TREE); break;
    case FETCH: number = tagetessash_fetch(state, TAGETESSASH_STATE_WORDS, out, TAGETESSASH_OUT_WORDS, level, 1, &place); break;
    case DIVIDE:
        number = tagetessash_divide(
            state, TAGETESSASH_STATE_WORDS, vector, vector_words, out, TAGETESSASH_OUT_WORDS, remainder, TAGETESSASH_OUT_WORDS, &place);
        break;
    case SHEET:
        number = tagetessash_sheet(
            file, file_bytes, state, TAGETESSASH_STATE_WORDS, work, TAGETESSASH_WORK_WORDS, sheet, TAGETESSASH_SHEET_BYTES, &place);
        break;
    case BETTI:
        number = tagetessash_betti(
            file, file_bytes, state, TAGETESSASH_STATE_WORDS, work, TAGETESSASH_WORK_WORDS, page, TAGETESSASH_PAGE_BYTES, &place);
        break;
    case MINIMAL:
        number = tagetessash_minimal(
            file, file_bytes, state, TAGETESSASH_STATE_WORDS, work, TAGETESSASH_WORK_WORDS, page, TAGETESSASH_PAGE_BYTES, &place);
        break;
    case BIDEGREES:
        number = tagetessash_bidegrees(
            file, file_bytes, state, TAGETESSASH_STATE_WORDS, work, TAGETESSASH_WORK_WORDS, lines, TAGETESSASH_BIDEGREES_BYTES, &place);
        break;
    case HILBERT:
        number = tagetessash_hilbert(
            file, file_bytes, state, TAGETESSASH_STATE_WORDS, work, TAGETESSASH_WORK_WORDS, values, TAGETESSASH_HILBERT_BYTES, &place);
        break;
    case MEMBER:
        number = tagetessash_member(
            input, input_bytes, state, TAGETESSASH_STATE_WORDS, work, TAGETESSASH_WORK_WORDS, division, TAGETESSASH_MEMBER_BYTES, &place);
        break;
    case COMPLETED:
        number = tagetessash_completed(
            file, file_bytes, state, TAGETESSASH_STATE_WORDS, work, TAGETESSASH_WORK_WORDS, completed, TAGETESSASH_COMPLETED_BYTES, &place);
        break;
    case REPLAY:
        number = tagetessash_replay(
            log_of, log_bytes, state, TAGETESSASH_STATE_WORDS, work, TAGETESSASH_WORK_WORDS, replayed, TAGETESSASH_REPLAY_BYTES, &place);
        break;
    }
    return nothing;
}

/* bytes of a stack that were written: from the frame of the call's caller on, and in all */
typedef struct {
    size_t call, whole;
} bytes_taken;

/* Makes the call in a thread with so much stack. */
static bytes_taken taken(int which, size_t bytes)
{
    uint8_t *whole = mmap(NULL, GUARD + bytes, PROT_READ | PROT_WRITE, MAP_PRIVATE | MAP_ANONYMOUS, -1, 0), *stack = whole + GUARD;
    pthread_attr_t how;
    pthread_t thread;
    bytes_taken most;
    size_t low = 0;
    call = which;
    if (whole == MAP_FAILED || mprotect(whole, GUARD, PROT_NONE) != 0)
        exit(2);
    memset(stack, 0xA5, bytes);
    if (pthread_attr_init(&how) != 0 || pthread_attr_setstack(&how, stack, bytes) != 0 || pthread_create(&thread, &how, run, NULL) != 0)
        exit(2);
    pthread_join(thread, NULL);
    pthread_attr_destroy(&how);
    while (low < bytes && stack[low] == 0xA5)
        low++;
    most.call = (size_t)(frame - (stack + low));
    most.whole = bytes - low;
    munmap(whole, GUARD + bytes);
    return most;
}

static size_t kib(size_t bytes) { return (bytes + 1023) / 1024; }

int main(int arguments, char **argument)
{
    bytes_taken most[CALLS] = { { 0, 0 } }, here;
    size_t given = 0, enough;
    int a = 1, which, bad = 0;
    if (arguments > 2 && strcmp(argument[1], "-b") == 0) {
        given = strtoul(argument[2], NULL, 10);
        a = 3;
    }
    for (; a <= arguments; a++) {
        if (a == arguments) {
            file_bytes = sizeof deep - 1;
            memcpy(file, deep, file_bytes);
        } else {
            FILE *in = fopen(argument[a], "rb");
            if (in == NULL)
                return 2;
            file_bytes = fread(file, 1, sizeof file, in);
            fclose(in);
        }
        for (which = READ; which < CALLS; which++) {
            enough = given != 0 ? given : calls[which].enough;
            level = 1;
            number = 0;
            if (which == DIVIDE)
                take_vector();
            do {
                here = taken(which, enough);
                if (here.call > most[which].call)
                    most[which].call = here.call;
                if (here.whole > most[which].whole)
                    most[which].whole = here.whole;
                if (number == TAGETESSASH_SHORT_BUFFER) {
                    printf("stack: %s: refused 16\n", calls[which].name);
                    bad = 1;
                }
                level++;
            } while (number == 0 && which >= DIVISION && which <= FETCH && level <= TAGETESSASH_HIGHEST_LEVEL);
            /* a limit empties the state */
            if (which < FETCH)
                taken(READ, given != 0 ? given : calls[READ].enough);
            if (which == TREE)
                for (level = 1; level < 3; level++)
                    taken(DIVISION, enough);
        }
    }
    for (which = READ; which < CALLS; which++) {
        enough = calls[which].enough;
        printf("stack: %s: %zu bytes, %zu KiB; the thread %zu KiB of %zu\n", calls[which].name, most[which].call, kib(most[which].call),
            kib(most[which].whole), enough / 1024);
        if (kib(most[which].call) > calls[which].kib + 1 || most[which].whole > enough / 4 * 3)
            bad = 1;
    }
    return bad;
}

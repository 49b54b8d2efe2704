/* SPDX-License-Identifier: MIT OR Apache-2.0 */
/* How long something took, in microseconds: the elapsed time; of what took a millisecond or longer the processor time of this thread where that is less, since
 * on a machine that does other work the elapsed time then has the others' turns in it. Of shorter calls some come through without them, and the processor time
 * is not exact enough: on a virtual machine it was seen to be some microseconds too small at times. */
#ifndef BENCH_CLOCK_H
#define BENCH_CLOCK_H

#include <time.h>

typedef struct {
    double processor, elapsed;
} moment;

static inline double clock_now(clockid_t clock)
{
    struct timespec t;
    clock_gettime(clock, &t);
    return (double)t.tv_sec * 1e6 + (double)t.tv_nsec / 1e3;
}

static inline double now(void) { return clock_now(CLOCK_MONOTONIC); }

/* the processor's clock outside, the other inside */
static inline moment start(void)
{
    moment m;
    m.processor = clock_now(CLOCK_THREAD_CPUTIME_ID);
    m.elapsed = now();
    return m;
}

static inline double since(moment m)
{
    double elapsed = now() - m.elapsed, processor = clock_now(CLOCK_THREAD_CPUTIME_ID) - m.processor;
    return elapsed < 1e3 || elapsed < processor ? elapsed : processor;
}

#endif

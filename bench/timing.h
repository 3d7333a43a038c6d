/* CPU time of calls: several ways of doing the same, in turn, each the least of several batches. */
#ifndef BENCH_TIMING_H
#define BENCH_TIMING_H

#include <stdint.h>
#include <time.h>

/* makes call number j of something */
typedef void timed_call(const void *context, int64_t j);

static inline double now(void)
{
    struct timespec t;
    clock_gettime(CLOCK_PROCESS_CPUTIME_ID, &t);
    return (double)t.tv_sec * 1e9 + (double)t.tv_nsec;
}

/* nanoseconds per call of so many calls */
static inline double batch(const void *context, timed_call *call, int64_t calls)
{
    double start = now();
    for (int64_t j = 0; j < calls; j++)
        call(context, j);
    return (now() - start) / (double)calls;
}

/* how many calls are long for the clock; finding it warms the buffers */
static inline int64_t calls_of_batch(const void *context, timed_call *call)
{
    const double long_enough = 1e5;
    int64_t calls = 1;
    while (batch(context, call, calls) * (double)calls < long_enough)
        calls *= 2;
    return calls;
}

/* nanoseconds per call of each way, 0 for a way that there is not; a call that takes long is made twice only */
static inline void time_ways(const void *context, timed_call *const ways[], int count, double times[])
{
    enum { ROUNDS = 33, MOST_WAYS = 10 };
    const double long_call = 2e6;
    int64_t calls[MOST_WAYS];
    for (int way = 0; way < count; way++) {
        calls[way] = ways[way] ? calls_of_batch(context, ways[way]) : 0;
        times[way] = ways[way] ? batch(context, ways[way], calls[way]) : 0;
    }
    for (int round = 1; round < ROUNDS; round++)
        for (int way = 0; way < count; way++) {
            if (!ways[way] || times[way] > long_call)
                continue;
            double time = batch(context, ways[way], calls[way]);
            if (time < times[way])
                times[way] = time;
        }
}

/* nanoseconds of one call of each way, as above, if calls take longer than the clock needs: the least of some rounds */
static inline void time_long_calls(const void *context, timed_call *const ways[], int count, int rounds, double times[])
{
    for (int round = 0; round < rounds; round++)
        for (int way = 0; way < count; way++) {
            double time = ways[way] ? batch(context, ways[way], 1) : 0;
            if (round == 0 || time < times[way])
                times[way] = time;
        }
}

static inline double time_one(const void *context, timed_call *call)
{
    double time;
    time_ways(context, &call, 1, &time);
    return time;
}

#endif

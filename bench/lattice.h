/* The steps from one element of a processor to the next, which the peers' tables are made of. */
#ifndef BENCH_LATTICE_H
#define BENCH_LATTICE_H

#include <stdint.h>

/* what a step adds to the cell and to the column, and its cells as whole periods and a rest */
typedef struct {
    int64_t cells, column, periods, rest;
} step;

/* the processor step, the return step and their sum, or one step thrice; downwards if the distance is below 0 */
typedef struct {
    step near, far, both;
} steps;

/* an element on the way: its column, and its cell as whole periods and a rest */
typedef struct {
    int64_t column, periods, rest;
} spot;

int64_t gcd(int64_t a, int64_t b);

/* the least times that a number below m must be taken to lie from low to high, modulo m; or -1 */
int64_t first_times(int64_t number, int64_t m, int64_t low, int64_t high);

/* the steps of elements that lie so many cells apart */
steps find_steps(int64_t distance, int64_t course, int64_t block, int64_t period);

static inline spot spot_of(int64_t cell, int64_t block, int64_t period)
{
    return (spot){cell % block, cell / period, cell % period};
}

static inline const step *fitting(const steps *s, int64_t column, int64_t block)
{
    if ((uint64_t)(column + s->near.column) < (uint64_t)block)
        return &s->near;
    if ((uint64_t)(column + s->far.column) < (uint64_t)block)
        return &s->far;
    return &s->both;
}

/* Goes on to the next element of the processor, without a division. */
static inline void go_on(spot *at, const steps *s, int64_t block, int64_t period)
{
    const step *by = fitting(s, at->column, block);
    at->column += by->column;
    at->periods += by->periods;
    at->rest += by->rest;
    if (at->rest >= period) {
        at->rest -= period;
        at->periods++;
    }
}

#endif

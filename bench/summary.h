/* Several ways over several inputs: mean times, and the ratio of two of them. */
#ifndef BENCH_SUMMARY_H
#define BENCH_SUMMARY_H

#include <inttypes.h>
#include <math.h>
#include <stdio.h>

#include "inputs.h"

enum { MOST_COLUMNS = 8 };

typedef struct {
    int inputs;
    double sum[MOST_COLUMNS], log_ratio, worst;
    int64_t worst_step;
} summary;

/* Adds an input's times, and a ratio of which the largest is the worst. */
static inline void add(summary *s, const double times[], int count, double ratio, int64_t step)
{
    for (int i = 0; i < count; i++)
        s->sum[i] += times[i];
    s->log_ratio += log(ratio);
    if (s->inputs++ == 0 || ratio > s->worst) {
        s->worst = ratio;
        s->worst_step = step;
    }
}

static inline double mean_ratio(const summary *s)
{
    return exp(s->log_ratio / s->inputs);
}

/* Begins a row. */
static inline void print_machine(machine m, int64_t stride)
{
    printf("| %" PRId64 " | %" PRId64 " | %" PRId64 " |", stride, m.processors, m.block);
}

/* Prints a mean to so many digits after the point, or a dash for what was not measured. */
static inline void print_mean(const summary *s, int column, int digits)
{
    double mean = s->inputs == 0 ? 0 : s->sum[column] / s->inputs;
    if (mean == 0)
        printf(" - |");
    else
        printf(" %.*f |", digits, mean);
}

/* Ends a row with so many means. */
static inline void print_means(const summary *s, int columns)
{
    for (int column = 0; column < columns; column++)
        print_mean(s, column, 0);
    printf("\n");
}

/* Prints a row for each stride on some machines. */
static inline void print_few(void print_row(machine m, int64_t stride))
{
    for (int a = 0; a < STRIDES; a++)
        for (int i = 0; i < FEW_MACHINES; i++)
            print_row(few_machines[i], strides[a]);
}

#endif

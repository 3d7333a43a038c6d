/* The goals of speed: the worst figure of each, and where it was met. */
#ifndef BENCH_GOALS_H
#define BENCH_GOALS_H

#include "library.h"

typedef enum {
    LONG_STRIDE_1,
    LONG_STEP_1,
    LONG_OTHER,
    REPEATING_ROWS,
    REPEATING,
    REPEATING_ITABLE,
    LONG_ITABLE,
    VERY_LONG_FILLS,
    SHORT_FILLS,
    GOING_BACK,
    CHECKPOINT_LOOP,
    RESTORE_LOOP,
    CHECKPOINT_MEMCPY,
    RESTORE_MEMCPY,
    FILL_BY_SIZES,
    GRID_LONG_ROWS,
    GRID_SHORT_ROWS,
    GRID_SHORT_REST,
    GRID_ONE_ENTRY,
    GOALS
} goal;

/* Holds a figure against a goal; numbers of the input that are 0 are not named. */
void hold_against(goal g, double figure, const input *in);

/* Prints the goals that something was held against. */
void print_goals(void);

#endif

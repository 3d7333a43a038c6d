/* Fills of a grid and their peers on one input. */
#ifndef BENCH_GRID_WAYS_H
#define BENCH_GRID_WAYS_H

#include "grid_inputs.h"

enum { LONG_ROW = 64, CHUNK = 4096 };

/* entries of the longest list that a fill of rank 1 does not copy by its periods */
enum { NOT_COPIED = 999 };

/*
 * A processor's whole list by one fill, and by fills of a chunk each; by the nested loops in vectors, one address to a
 * turn, and with their set-up; as many addresses by fills of rank 1; and a fill of one entry.
 */
enum { GRID_FILL, GRID_CHUNKS, GRID_LOOPS, GRID_TURNS, GRID_SET_UP, GRID_RANK_1, GRID_ONE, GRID_WAYS };

/* a processor's whole list, its dimensions, and where rows are long a list of rank 1 with as many entries */
typedef struct {
    grid_input in;
    grid_part parts[DIMENSIONS];
    size_t entries;
    job rank_1;
} grid_job;

grid_job grid_list(grid_input in);

static inline size_t row_length(const grid_job *j)
{
    return j->parts[0].list.entries;
}

/* Nanoseconds per call, 0 for a way that there is not. Stops the program first if the ways differ. */
void time_grid(const grid_job *j, double times[GRID_WAYS]);

#endif

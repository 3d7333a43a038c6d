/*
 * A processor's list of a grid's section as runtimes make it: for each dimension a table of the local addresses of the
 * processor's elements of that dimension's section, and nested loops over the tables. They ask no questions, count no
 * tries, and must be told where each dimension's list begins, how long it is, and the local counts.
 */
#ifndef BENCH_GRID_PEERS_H
#define BENCH_GRID_PEERS_H

#include "inputs.h"

enum { DIMENSIONS = 3, LONGEST_TABLE = 1000 };

/* a dimension of a grid: its whole list, and the number of elements at its processor's coordinate */
typedef struct {
    job list;
    int64_t elements;
} grid_part;

typedef struct {
    size_t length;
    uint32_t elements;
    uint32_t address[LONGEST_TABLE];
} dimension_table;

/* by the table walk, with its set-up */
void build_table(dimension_table *t, const grid_part *part);

/* one nest of loops, compiled with as many addresses to a turn as a vector has, and with one */
void list_by_tables(const dimension_table t[DIMENSIONS], uint32_t *list);
void list_by_turns(const dimension_table t[DIMENSIONS], uint32_t *list);

#endif

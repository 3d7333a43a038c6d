/*
 * Other ways to answer what the library answers, to hold it against. They take the
 * offset 0, ask no questions, and must be told how many addresses to list.
 */
#ifndef BENCH_PEERS_H
#define BENCH_PEERS_H

#include <stddef.h>
#include <stdint.h>

#include "library.h"

enum { LARGEST_BLOCK = 65536 };

/*
 * The address of each column's lowest element on a processor, document 004's Itable;
 * columns repeat after a period of so many cells, and so many elements later.
 */
typedef struct {
    int64_t period, elements;
    uint32_t address[LARGEST_BLOCK];
} address_table;

/* The next column of the section and what it adds to the address, by columns. */
typedef struct {
    uint32_t move[LARGEST_BLOCK];
    uint32_t next[LARGEST_BLOCK];
} move_table;

/* The addresses of a section until its columns repeat, and what they grow by until then. */
typedef struct {
    size_t length;
    uint32_t growth;
    uint32_t address[LARGEST_BLOCK];
} pattern_table;

/* The lowest cell of each address of a period. */
typedef struct {
    int64_t cell[LARGEST_BLOCK];
} cell_table;

/* address_tables.c: each is O(k), but where the stride is 1 there is nothing to build */

void build_addresses(address_table *t, const input *in);
void build_cells(cell_table *c, const address_table *t, const input *in);
uint32_t address_of(const address_table *t, const input *in, int64_t cell);
int64_t element_of(const address_table *t, const cell_table *c, const input *in, int64_t address);

/* section_tables.c: the table walk and document 004's Itable method; building is O(k) */

void build_moves(move_table *m, const address_table *t, const input *in, int64_t position);
void walk_tables(const move_table *m, const address_table *t, const input *in, int64_t position, uint32_t *list,
                 size_t entries);
void build_pattern(pattern_table *p, const address_table *t, const input *in, int64_t position);
void list_by_pattern(const pattern_table *p, uint32_t *list, size_t entries);

/* owner_test.c: each element of the section is asked for its owner */

void test_owners(const address_table *t, const input *in, int64_t position, uint32_t *list, size_t entries);
int64_t first_place_by_owners(const input *in);

/* column_scan.c: each column of a block is solved for the least position, as Kennedy et al. do; O(k) */

int64_t first_place_by_columns(const input *in);
int64_t steps_by_columns(const input *in, int64_t *return_cells);

static inline int64_t cell_of(const input *in, int64_t position)
{
    return in->stride * (in->lower + position * in->step);
}

static inline int64_t course_of(const input *in)
{
    return in->processors * in->block;
}

#endif

/* The grids and sections that are measured, and the library's calls on them. */
#ifndef BENCH_GRID_INPUTS_H
#define BENCH_GRID_INPUTS_H

#include "grid_peers.h"

enum { SHAPES = 3, GRID_BLOCKS = 3, GRID_STRIDES = 2, GRID_SECTIONS = 10, MOST_COORDINATES = 32 };
enum { FIRST_SPOT, MIDDLE_SPOT, LAST_SPOT, SPOTS };
enum { GRID_BY_SIZES = 0 };

/* as many processors and elements in each dimension */
typedef struct {
    int64_t rank, processors, size;
} grid_shape;

/* the step of the first dimension's section, and that of the others */
typedef struct {
    int64_t first, others;
} grid_step;

extern const grid_shape shapes[SHAPES];
extern const int64_t grid_blocks[GRID_BLOCKS];
extern const int64_t grid_strides[GRID_STRIDES];
extern const grid_step grid_steps[GRID_SECTIONS];

/* a section of whole dimensions by steps, and a processor that has a part of it; the block may be GRID_BY_SIZES */
typedef struct {
    grid_shape shape;
    int64_t block, stride;
    grid_step step;
    hpf_grid_section section;
    int32_t sizes[MOST_COORDINATES];
    int64_t processor, place, count;
} grid_input;

/* The processor has in every dimension the first coordinate, a middle one or the last, of those that have a part. */
grid_input grid_of(grid_shape shape, int64_t block, int64_t stride, grid_step step, int spot);

/* A dimension of a grid without lists of sizes; past the rank one element on one processor. */
grid_part part_of(const grid_input *g, int dimension);

/* So many entries of the first dimension's list alone, the dimension being so much longer. */
job row_of(const grid_input *g, size_t entries);

/* what a goal or a difference names: all processors, and the first dimension's step */
input named(const grid_input *g);

/* Prints p of each dimension, and steps, as 4 x 4. */
void print_shape(grid_shape shape);
void print_steps(grid_shape shape, grid_step step);

#define GRID_SIZES(g) SIZES_OF(g), SIZES_OF(g), SIZES_OF(g)
#define SIZES_OF(g) (const uint8_t *)(g)->sizes, sizeof (g)->sizes[0] * (size_t)(g)->shape.processors

static inline hpf_owned grid_ownership(const grid_input *g, const int64_t index[DIMENSIONS])
{
    return hpf_grid_ownership(g->section.grid, GRID_SIZES(g), index[0], index[1], index[2]);
}

static inline hpf_grid_found grid_going_back(const grid_input *g, int64_t processor, int64_t address)
{
    return hpf_grid_going_back(g->section.grid, GRID_SIZES(g), processor, address);
}

static inline hpf_grid_steps grid_section_steps(const grid_input *g)
{
    return hpf_grid_section_steps(g->section, GRID_SIZES(g));
}

static inline hpf_placed grid_first_place(const grid_input *g)
{
    return hpf_grid_first_place(g->section, GRID_SIZES(g), g->processor);
}

static inline hpf_filled grid_fill(const grid_input *g, int64_t place, uint32_t *list, size_t entries)
{
    return hpf_grid_fill(g->section, GRID_SIZES(g), g->processor, place, HPF_LARGEST_QUOTA, (uint8_t *)list,
                         sizeof list[0] * entries);
}

#endif

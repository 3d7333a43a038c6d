/* Grids, their sections, and their dimensions by themselves. */
#include "grid_inputs.h"

#include <inttypes.h>
#include <stdio.h>
#include <stdlib.h>

const grid_shape shapes[SHAPES] = {{2, 4, 1000}, {2, 32, 1000}, {3, 4, 100}};
const int64_t grid_blocks[GRID_BLOCKS] = {1, 8, 64};
const int64_t grid_strides[GRID_STRIDES] = {1, 3};
const grid_step grid_steps[GRID_SECTIONS] = {
    {1, 1}, {-1, 1}, {-1, -1}, {3, 3}, {2, 1}, {3, 1}, {7, 1}, {2, 2}, {7, 7}, {-7, -7},
};

/* Sizes that grow with the coordinate, cells or more in all. */
static void deal(grid_input *g, int64_t cells)
{
    int64_t p = g->shape.processors, unit = cells / (p * p) + 1;
    for (int64_t q = 0; q < p; q++)
        g->sizes[q] = (int32_t)((2 * q + 1) * unit);
}

static int64_t count_of(hpf_triplet t)
{
    return (t.upper - t.lower) / t.stride + 1;
}

static int64_t coordinate_of(const grid_input *g, int dimension)
{
    int64_t rest = g->processor;
    for (int d = 0; d < dimension; d++)
        rest /= g->shape.processors;
    return rest % g->shape.processors;
}

static input dimension_input(const grid_input *g, int dimension)
{
    hpf_dimension d = g->section.grid.dimensions[dimension];
    hpf_triplet t = g->section.triplets[dimension];
    return (input){d.cells, d.processors, d.block, d.stride, d.size, t.lower, t.upper, t.stride,
                   coordinate_of(g, dimension)};
}

input named(const grid_input *g)
{
    input in = dimension_input(g, 0);
    in.processor = g->processor;
    for (int d = 1; d < g->shape.rank; d++)
        in.processors *= g->shape.processors;
    return in;
}

/* The processor with this coordinate in every dimension, or with the next lower one that has a part. */
static void choose_processor(grid_input *g, int64_t coordinate)
{
    int64_t p = g->shape.processors, diagonal = g->shape.rank == 2 ? 1 + p : 1 + p * (1 + p);
    input name = named(g);
    for (; coordinate >= 0; coordinate--) {
        g->processor = coordinate * diagonal;
        g->place = grid_first_place(g).place;
        if (g->place != g->count)
            return;
    }
    stop_different("number of processors that have a part", &name);
}

grid_input grid_of(grid_shape shape, int64_t block, int64_t stride, grid_step step, int spot)
{
    const int64_t coordinates[SPOTS] = {
        [FIRST_SPOT] = 0, [MIDDLE_SPOT] = shape.processors / 3, [LAST_SPOT] = shape.processors - 1,
    };
    grid_input g = {.shape = shape, .block = block, .stride = stride, .step = step, .count = 1};
    int64_t last = shape.size - 1, cells = stride * last + 1;
    deal(&g, cells);
    g.section.grid.rank = shape.rank;
    for (int d = 0; d < shape.rank; d++) {
        int64_t s = d == 0 ? step.first : step.others;
        g.section.grid.dimensions[d] = (hpf_dimension){
            .cells = cells, .processors = shape.processors, .block = block, .stride = stride, .size = shape.size,
            .dealing = block == GRID_BY_SIZES ? HPF_GEN_BLOCK : HPF_CYCLIC,
        };
        g.section.triplets[d] = s > 0 ? (hpf_triplet){0, last, s} : (hpf_triplet){last, 0, s};
        g.count *= count_of(g.section.triplets[d]);
    }
    choose_processor(&g, coordinates[spot]);
    return g;
}

grid_part part_of(const grid_input *g, int dimension)
{
    static const input single = {1, 1, 1, 1, 1, 0, 0, 1, 0};
    input in = dimension < g->shape.rank ? dimension_input(g, dimension) : single;
    return (grid_part){whole_list(in), local_count(&in)};
}

job row_of(const grid_input *g, size_t entries)
{
    input in = dimension_input(g, 0);
    int64_t course = in.processors * in.block;
    in.size = ((int64_t)entries * llabs(in.step) * in.processors / course + 2) * course;
    in.cells = in.stride * (in.size - 1) + 1;
    if (in.step > 0)
        in.upper = in.size - 1;
    else
        in.lower = in.size - 1;
    return (job){in, {first_place(&in)}, 1, entries};
}

void print_shape(grid_shape shape)
{
    for (int d = 0; d < shape.rank; d++)
        printf("%s%" PRId64, d == 0 ? " " : " x ", shape.processors);
    printf(" |");
}

void print_steps(grid_shape shape, grid_step step)
{
    for (int d = 0; d < shape.rank; d++)
        printf("%s%" PRId64, d == 0 ? " " : " x ", d == 0 ? step.first : step.others);
    printf(" |");
}

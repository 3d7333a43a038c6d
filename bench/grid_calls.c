/* What a call on a grid costs: ownership, going back, steps, first place and a fill of one entry. */
#include "goals.h"
#include "grid_inputs.h"
#include "summary.h"
#include "tables.h"
#include "timing.h"

enum { SPREAD = 1024 };
enum { OWNED, BACK, SECTION_STEPS, PLACE, ONE, CALLS };

/* elements spread over the array, and where they are */
typedef struct {
    grid_input in;
    int64_t index[SPREAD][DIMENSIONS];
    hpf_owned owned[SPREAD];
} grid_elements;

static grid_elements elements;
static uint32_t entry;
static volatile int64_t sink;

static void call_ownership(const void *context, int64_t call)
{
    const grid_elements *e = context;
    sink = grid_ownership(&e->in, e->index[call % SPREAD]).address;
}

static void call_going_back(const void *context, int64_t call)
{
    const grid_elements *e = context;
    const hpf_owned *o = &e->owned[call % SPREAD];
    sink = grid_going_back(&e->in, o->processor, o->address).first;
}

static void call_steps(const void *context, int64_t call)
{
    (void)call;
    sink = grid_section_steps(&((const grid_elements *)context)->in).count;
}

static void call_first_place(const void *context, int64_t call)
{
    (void)call;
    sink = grid_first_place(&((const grid_elements *)context)->in).place;
}

static void fill_one(const void *context, int64_t call)
{
    const grid_input *g = &((const grid_elements *)context)->in;
    (void)call;
    sink = grid_fill(g, g->place, &entry, 1).entries;
}

/* Spreads the elements, and stops the program where going back does not lead to one. */
static void spread_elements(grid_input in)
{
    static const int64_t prime[DIMENSIONS] = {7919, 104729, 1299709};
    input name = named(&in);
    elements.in = in;
    for (int64_t i = 0; i < SPREAD; i++) {
        int64_t *index = elements.index[i];
        for (int d = 0; d < DIMENSIONS; d++)
            index[d] = d < in.shape.rank ? i * prime[d] % in.shape.size : 0;
        hpf_owned owned = grid_ownership(&in, index);
        hpf_grid_found found = grid_going_back(&in, owned.processor, owned.address);
        if (owned.refusal != HPF_ACCEPTED || found.refusal != HPF_ACCEPTED || found.first != index[0] ||
            found.second != index[1] || found.third != index[2])
            stop_different("element that going back finds", &name);
        elements.owned[i] = owned;
    }
}

/* Stops the program if the counts, or the first place and its address, are not those of the section. */
static void stop_if_different(const grid_input *g)
{
    int64_t rest = g->place, index[DIMENSIONS] = {0};
    input name = named(g);
    for (int d = 0; d < g->shape.rank; d++) {
        int64_t count = grid_section_steps(g).dimensions[d].count;
        index[d] = g->section.triplets[d].lower + rest % count * g->section.triplets[d].stride;
        rest /= count;
    }
    fill_one(&elements, 0);
    hpf_owned owned = grid_ownership(g, index);
    if (sink != 1 || owned.processor != g->processor || owned.address != (int64_t)entry ||
        grid_section_steps(g).count != g->count)
        stop_different("first element of a list", &name);
}

static void print_calls(int64_t stride, grid_shape shape, int64_t block)
{
    timed_call *const calls[CALLS] = {call_ownership, call_going_back, call_steps, call_first_place, fill_one};
    double times[CALLS];
    spread_elements(grid_of(shape, block, stride, (grid_step){7, 7}, MIDDLE_SPOT));
    stop_if_different(&elements.in);
    time_ways(&elements, calls, CALLS, times);
    input in = named(&elements.in);
    hold_against(GRID_ONE_ENTRY, times[ONE], &in);
    printf("| %" PRId64 " |", stride);
    print_shape(shape);
    if (block == GRID_BY_SIZES)
        printf(" by sizes |");
    else
        printf(" %" PRId64 " |", block);
    for (int call = 0; call < CALLS; call++)
        printf(" %.0f |", times[call]);
    printf("\n");
}

void print_grid_calls(void)
{
    printf("\n## Calls on grids\n\n"
           "ns per call, at %d elements of all processors, s = 7 in every dimension, and a processor in the middle;\n"
           "every dimension with the same k, or by sizes that grow with the coordinate.\n\n"
           "| a | grid | k | ownership | going back | steps | first place | fill of 1 |\n"
           "|---|---|---|---|---|---|---|---|\n",
           SPREAD);
    for (int a = 0; a < GRID_STRIDES; a++)
        for (int g = 0; g < SHAPES; g++) {
            for (int k = 0; k < GRID_BLOCKS; k++)
                print_calls(grid_strides[a], shapes[g], grid_blocks[k]);
            print_calls(grid_strides[a], shapes[g], GRID_BY_SIZES);
        }
}

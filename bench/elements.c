/* Ownership and going back of a processor's elements, beside tables by columns and by addresses. */
#include "goals.h"
#include "peers.h"
#include "summary.h"
#include "tables.h"
#include "timing.h"

enum { SPREAD = 1024 };
enum { OWNED, OWNED_STANDING, OWNED_SET_UP, BACK, BACK_STANDING, BACK_SET_UP, COUNTED, COLUMNS };

/* elements of the input's processor, spread over its memory */
typedef struct {
    input in;
    int64_t index[SPREAD], address[SPREAD];
} elements;

static address_table addresses;
static cell_table cells;
static volatile int64_t sink;

static void call_ownership(const void *context, int64_t j)
{
    const elements *e = context;
    sink = ownership(&e->in, e->index[j % SPREAD]).address;
}

static void call_table_ownership(const void *context, int64_t j)
{
    const elements *e = context;
    int64_t cell = e->in.stride * e->index[j % SPREAD];
    sink = cell / e->in.block % e->in.processors;
    sink = address_of(&addresses, &e->in, cell);
}

static void build_and_own(const void *context, int64_t j)
{
    build_addresses(&addresses, &((const elements *)context)->in);
    call_table_ownership(context, j);
}

static void call_going_back(const void *context, int64_t j)
{
    const elements *e = context;
    sink = going_back(&e->in, e->address[j % SPREAD]);
}

static void call_table_back(const void *context, int64_t j)
{
    const elements *e = context;
    sink = element_of(&addresses, &cells, &e->in, e->address[j % SPREAD]);
}

static void build_and_go_back(const void *context, int64_t j)
{
    const elements *e = context;
    build_addresses(&addresses, &e->in);
    build_cells(&cells, &addresses, &e->in);
    call_table_back(context, j);
}

static void call_local_count(const void *context, int64_t j)
{
    (void)j;
    sink = local_count(&((const elements *)context)->in);
}

/* Spreads the elements, and stops the program where library and tables differ. */
static elements spread_elements(input in)
{
    static const int64_t large = INT64_C(7919) * INT64_C(104729);
    elements e = {in, {0}, {0}};
    int64_t count = local_count(&in);
    build_addresses(&addresses, &in);
    build_cells(&cells, &addresses, &in);
    for (int64_t j = 0; j < SPREAD; j++) {
        int64_t address = j * large % count, index = going_back(&in, address);
        hpf_owned owned = ownership(&in, index);
        if (owned.processor != in.processor || owned.address != address ||
            address_of(&addresses, &in, in.stride * index) != (uint32_t)address ||
            element_of(&addresses, &cells, &in, address) != index)
            stop_different("address or element by tables", &in);
        e.address[j] = address;
        e.index[j] = index;
    }
    return e;
}

static void print_machine_elements(machine m, int64_t stride)
{
    timed_call *const ways[COLUMNS] = {
        call_ownership, call_table_ownership, build_and_own, call_going_back, call_table_back, build_and_go_back,
        call_local_count,
    };
    double times[COLUMNS];
    summary s = {0};
    elements e = spread_elements(section_of(m, stride, 1, largest_size(stride)));
    time_ways(&e, ways, COLUMNS, times);
    add(&s, times, COLUMNS, 1, 1);
    if (stride == 1) {
        e.in.step = 0;
        hold_against(GOING_BACK, times[BACK], &e.in);
    }
    print_machine(m, stride);
    print_means(&s, COLUMNS);
}

void print_elements(void)
{
    printf("\n## Ownership and going back\n\n"
           "ns per call, at %d elements of one processor; tables by columns and by addresses, which with a = 1 are a\n"
           "formula; local count has no peer.\n\n"
           "| a | p | k | ownership | tables | with set-up | going back | tables | with set-up | local count |\n"
           "|---|---|---|---|---|---|---|---|---|---|\n",
           SPREAD);
    print_few(print_machine_elements);
}

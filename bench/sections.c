/* First place and steps of sections, beside the scan of the columns and the owner test. */
#include "peers.h"
#include "summary.h"
#include "tables.h"
#include "timing.h"

enum { PLACE, PLACE_COLUMNS, PLACE_OWNERS, SECTION_STEPS, STEP_COLUMNS, COLUMNS };

static volatile int64_t sink;

static void call_first_place(const void *context, int64_t j)
{
    (void)j;
    sink = first_place(context);
}

static void scan_first_place(const void *context, int64_t j)
{
    (void)j;
    sink = first_place_by_columns(context);
}

static void test_first_place(const void *context, int64_t j)
{
    (void)j;
    sink = first_place_by_owners(context);
}

static void call_steps(const void *context, int64_t j)
{
    (void)j;
    sink = section_steps(context).cells;
}

static void scan_steps(const void *context, int64_t j)
{
    int64_t return_cells;
    (void)j;
    sink = steps_by_columns(context, &return_cells);
    sink = return_cells;
}

static void stop_if_different(const input *in)
{
    int64_t return_cells, cells = steps_by_columns(in, &return_cells), place = first_place(in);
    hpf_steps s = section_steps(in);
    if (s.cells == cells && s.return_cells == return_cells && place == first_place_by_columns(in) &&
        place == first_place_by_owners(in))
        return;
    stop_different("column scan or owner test", in);
}

static void print_machine_sections(machine m, int64_t stride)
{
    timed_call *const ways[COLUMNS] = {call_first_place, scan_first_place, test_first_place, call_steps, scan_steps};
    summary s = {0};
    for (int i = 0; i < STEPS; i++) {
        double times[COLUMNS];
        input in = section_of(m, stride, step_of(m, i), largest_size(stride));
        if (section_steps(&in).count < 2)
            continue;
        stop_if_different(&in);
        time_ways(&in, ways, COLUMNS, times);
        add(&s, times, COLUMNS, 1, in.step);
    }
    print_machine(m, stride);
    printf(" %d |", s.inputs);
    print_means(&s, COLUMNS);
}

void print_sections(void)
{
    printf("\n## First place and steps\n\n"
           "ns per call.\n\n"
           "| a | p | k | inputs | first place | column scan | owner test | steps | column scan |\n"
           "|---|---|---|---|---|---|---|---|---|\n");
    print_few(print_machine_sections);
}

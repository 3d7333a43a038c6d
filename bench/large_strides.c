/* Long fills with large alignment strides and a large block: lists that repeat late, or not at all. */
#include "fill_ways.h"
#include "summary.h"
#include "tables.h"

enum { LARGE_STRIDES = 4, LARGE_STEPS = 2 };
enum { BUILT_PATTERN = PATTERN + 1, COLUMNS };

/* few processors, so that each has a list that is long */
static const machine large = {4, 65536};
static const int64_t large_strides[LARGE_STRIDES] = {300, 1000, 2047, 4095};
static const int64_t large_steps[LARGE_STEPS] = {3, 7};

static void print_stride(int64_t stride, int64_t step)
{
    timed_call *const held[WAYS] = {call_fill, call_walk, call_pattern, NULL};
    timed_call *const ways[COLUMNS] = {call_fill, call_walk, call_pattern, build_and_pattern};
    double times[COLUMNS];
    job j = whole_list(section_of(large, stride, step, largest_size(stride)));
    build_all(&j);
    check_ways(&j, held);
    time_ways(&j, ways, COLUMNS, times);
    print_machine(large, stride);
    printf(" %" PRId64 " | %zu | %zu |", step, j.entries, period_of(&j));
    for (int way = 0; way < COLUMNS; way++)
        printf(" %.2f |", times[way] / (double)j.entries);
    printf(" %.2f | %.2f |\n", times[FILL] / times[WALK], times[FILL] / times[BUILT_PATTERN]);
}

void print_large_strides(void)
{
    printf("\n## Large alignment strides\n\n"
           "Up to %d entries, ns per address. A list that is shorter than its period does not repeat. No goal is\n"
           "held against these.\n\n"
           "| a | p | k | s | entries | entries in a period | fill | table walk | Itable | Itable with set-up "
           "| fill / walk | fill / Itable with set-up |\n"
           "|---|---|---|---|---|---|---|---|---|---|---|---|\n",
           LONG);
    for (int a = 0; a < LARGE_STRIDES; a++)
        for (int s = 0; s < LARGE_STEPS; s++)
            print_stride(large_strides[a], large_steps[s]);
}

/* Short fills: nanoseconds per call, beside the peers with their set-up. */
#include "fill_ways.h"
#include "goals.h"
#include "summary.h"
#include "tables.h"

enum { LENGTHS = 3, LARGE_BLOCK = 65536 };

static const size_t lengths[LENGTHS] = {1, 3, 10};

static void time_short(const job *j, double times[WAYS])
{
    timed_call *const ways[WAYS] = {call_fill, build_and_walk, build_and_pattern, build_and_owners};
    check_ways(j, ways);
    time_ways(j, ways, WAYS, times);
}

static void print_machine_short(machine m, int64_t stride, size_t entries)
{
    summary s = {0};
    for (int i = 0; i < STEPS; i++) {
        double times[WAYS];
        job whole = whole_list(section_of(m, stride, step_of(m, i), largest_size(stride)));
        if (whole.entries < lengths[LENGTHS - 1])
            continue;
        job j = short_lists(&whole, entries);
        time_short(&j, times);
        add(&s, times, WAYS, times[FILL] / times[WALK], j.in.step);
        if (m.block == LARGE_BLOCK)
            hold_against(SHORT_FILLS, times[WALK] / times[FILL], &j.in);
    }
    print_machine(m, stride);
    printf(" %d |", s.inputs);
    for (int way = 0; way < WAYS; way++)
        print_mean(&s, way, 0);
    printf(" %.3g | %.3g | %" PRId64 " |\n", 1 / mean_ratio(&s), 1 / s.worst, s.worst_step);
}

void print_short_fills(void)
{
    for (int n = 0; n < LENGTHS; n++) {
        printf("\n## Short fills: %zu %s\n\n"
               "ns per call, the peers' set-up counted; sections that have %zu entries or more.\n\n"
               "| a | p | k | inputs | fill | table walk | Itable | owner test | walk / fill | least | at s |\n"
               "|---|---|---|---|---|---|---|---|---|---|---|\n",
               lengths[n], lengths[n] == 1 ? "entry" : "entries", lengths[LENGTHS - 1]);
        for (int a = 0; a < STRIDES; a++)
            for (int i = 0; i < FEW_MACHINES; i++)
                print_machine_short(few_machines[i], strides[a], lengths[n]);
    }
}

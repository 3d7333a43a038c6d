/* Inputs and jobs. */
#include "inputs.h"

#include <inttypes.h>
#include <stdio.h>
#include <stdlib.h>

const machine machines[MACHINES] = {
    {32, 2},   {32, 4},   {32, 8},   {32, 16},   {32, 32},      {32, 64},
    {32, 128}, {32, 256}, {32, 512}, {32, 1024}, {1024, 65536},
};
const machine few_machines[FEW_MACHINES] = {{32, 2}, {32, 16}, {32, 128}, {32, 1024}, {1024, 65536}};
const int64_t strides[STRIDES] = {1, 3, 5, 64};

static uint32_t list[VERY_LONG];

int64_t step_of(machine m, int i)
{
    int64_t k = m.block, pk = m.processors * k;
    const int64_t steps[STEPS / 2] = {1, 3, 7, 11, 99, k - 1, k + 1, pk - 1, pk + 1};
    return i < STEPS / 2 ? steps[i] : -steps[i - STEPS / 2];
}

int64_t largest_size(int64_t stride)
{
    return INT64_C(2147483646) / stride + 1;
}

input section_of(machine m, int64_t stride, int64_t step, int64_t size)
{
    int64_t last = size - 1;
    input in = {stride * last + 1, m.processors, m.block, stride, size, 0, last, step, 0};
    if (step < 0) {
        in.lower = last;
        in.upper = 0;
    }
    int64_t position = last / llabs(step) / 3;
    in.processor = stride * (in.lower + position * step) / in.block % in.processors;
    return in;
}

void stop_different(const char *way, const input *in)
{
    printf("the %s differs: p %" PRId64 ", k %" PRId64 ", a %" PRId64 ", s %" PRId64 "\n", way, in->processors,
           in->block, in->stride, in->step);
    exit(1);
}

static job list_up_to(input in, size_t most)
{
    job j = {in, {first_place(&in)}, 1, 0};
    j.entries = fill_in_turns(&in, j.places[0], list, most, most);
    return j;
}

job whole_list(input in)
{
    return list_up_to(in, LONG);
}

job very_long_list(input in)
{
    return list_up_to(in, VERY_LONG);
}

job short_lists(const job *whole, size_t entries)
{
    job j = *whole;
    int64_t most = (int64_t)(whole->entries - entries) + 1;
    for (; j.place_count < PLACES && j.place_count < most; j.place_count++)
        j.places[j.place_count] = fill(&j.in, j.places[j.place_count - 1], list, 1).place;
    j.entries = entries;
    return j;
}

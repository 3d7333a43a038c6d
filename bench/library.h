/* An input of the benchmark, and the library's calls on it. */
#ifndef BENCH_LIBRARY_H
#define BENCH_LIBRARY_H

#include <stddef.h>
#include <stdint.h>

#include "hpfaddr.h"

/* a section of an array with offset and bounds 0, and a processor */
typedef struct {
    int64_t cells, processors, block, stride, size;
    int64_t lower, upper, step;
    int64_t processor;
} input;

static inline hpf_owned ownership(const input *in, int64_t index)
{
    return hpf_ownership(in->cells, in->processors, in->block, in->stride, 0, in->size, 0, 0, index);
}

static inline int64_t going_back(const input *in, int64_t address)
{
    return hpf_going_back(in->cells, in->processors, in->block, in->stride, 0, in->size, 0, 0, in->processor,
                          address).index;
}

static inline int64_t local_count(const input *in)
{
    return hpf_local_count(in->cells, in->processors, in->block, in->stride, 0, in->size, 0, 0, in->processor).elements;
}

static inline hpf_steps section_steps(const input *in)
{
    return hpf_section_steps(in->cells, in->processors, in->block, in->stride, 0, in->size, 0, 0, in->lower, in->upper,
                             in->step);
}

static inline int64_t first_place(const input *in)
{
    return hpf_first_place(in->cells, in->processors, in->block, in->stride, 0, in->size, 0, 0, in->lower, in->upper,
                           in->step, in->processor).place;
}

static inline hpf_filled fill_within(const input *in, int64_t place, int64_t quota, uint32_t *list, size_t entries)
{
    return hpf_fill(in->cells, in->processors, in->block, in->stride, 0, in->size, 0, 0, in->lower, in->upper, in->step,
                    in->processor, place, quota, (uint8_t *)list, 4 * entries);
}

/* a fill of so many entries, with a quota that is enough */
static inline hpf_filled fill(const input *in, int64_t place, uint32_t *list, size_t entries)
{
    return fill_within(in, place, 3 * (int64_t)entries, list, entries);
}

/*
 * as many entries, by fills of the largest quota and of so many entries at most, each from where the one before it
 * came to; how many there are
 */
static inline size_t fill_in_turns(const input *in, int64_t place, uint32_t *list, size_t entries, size_t most)
{
    size_t listed = 0;
    while (listed < entries) {
        size_t left = entries - listed;
        hpf_filled f = fill_within(in, place, HPF_LARGEST_QUOTA, list + listed, left < most ? left : most);
        if (f.entries == 0)
            break;
        listed += (size_t)f.entries;
        place = f.place;
    }
    return listed;
}

/* the whole array's words, from storage to index order and back */
static inline hpf_copied checkpoint(const input *in, const int64_t *storage, int64_t *saved)
{
    size_t words = (size_t)in->size;
    return hpf_checkpoint(in->cells, in->processors, in->block, in->stride, 0, in->size, 0, 0, storage, words, saved,
                          words);
}

static inline hpf_copied restore(const input *in, const int64_t *saved, int64_t *storage)
{
    size_t words = (size_t)in->size;
    return hpf_restore(in->cells, in->processors, in->block, in->stride, 0, in->size, 0, 0, saved, words, storage,
                       words);
}

#endif

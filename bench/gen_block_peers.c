/* Lists, owners and places by sizes, as plain loops. */
#include "gen_block_peers.h"

__attribute__((optimize("no-tree-vectorize")))
void list_by_step(uint32_t address, uint32_t step, uint32_t *list, size_t entries)
{
    for (size_t i = 0; i < entries; i++) {
        list[i] = address;
        address += step;
    }
}

void list_by_vectors(uint32_t address, uint32_t step, uint32_t *list, size_t entries)
{
    for (size_t i = 0; i < entries; i++) {
        list[i] = address;
        address += step;
    }
}

/* The first number of steps that reaches so many cells. */
static int64_t steps_to(int64_t cells, int64_t step)
{
    return cells <= 0 ? 0 : (cells + step - 1) / step;
}

hpf_owned owner_by_sums(const hpf_gen_block_mapping *m, int64_t index)
{
    const int32_t *sizes = (const int32_t *)m->sizes;
    int64_t cell = m->stride * index, start = 0;
    int32_t processor = 0;
    for (; cell >= start + sizes[processor]; processor++)
        start += sizes[processor];
    return (hpf_owned){HPF_ACCEPTED, processor, (int32_t)(index - steps_to(start, m->stride))};
}

int64_t first_place_by_sums(const hpf_gen_block_mapping *m, const hpf_triplet *s, int64_t processor)
{
    const int32_t *sizes = (const int32_t *)m->sizes;
    int64_t first = m->stride * s->lower, distance = m->stride * s->stride, start = 0;
    for (int64_t q = 0; q < processor; q++)
        start += sizes[q];
    if (distance > 0)
        return steps_to(start - first, distance);
    return steps_to(first - (start + sizes[processor] - 1), -distance);
}

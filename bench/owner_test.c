/* The owner test on each element of a section. */
#include "peers.h"

void test_owners(const address_table *t, const input *in, int64_t position, uint32_t *list, size_t entries)
{
    uint32_t cell = (uint32_t)cell_of(in, position), distance = (uint32_t)(in->stride * in->step);
    uint32_t block = (uint32_t)in->block, processors = (uint32_t)in->processors, owner = (uint32_t)in->processor;
    for (size_t i = 0; i < entries; cell += distance)
        if (cell / block % processors == owner)
            list[i++] = address_of(t, in, cell);
}

int64_t first_place_by_owners(const input *in)
{
    uint32_t cell = (uint32_t)cell_of(in, 0), distance = (uint32_t)(in->stride * in->step);
    uint32_t block = (uint32_t)in->block, processors = (uint32_t)in->processors, owner = (uint32_t)in->processor;
    int64_t position = 0;
    for (; cell / block % processors != owner; cell += distance)
        position++;
    return position;
}

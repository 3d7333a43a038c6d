/* Addresses by columns and cells by addresses: one walk through a processor's elements until columns repeat. */
#include "lattice.h"
#include "peers.h"

static int64_t lowest_cell(const input *in)
{
    int64_t course = course_of(in), low = in->processor * in->block;
    return first_times(in->stride % course, course, low, low + in->block - 1) * in->stride;
}

void build_addresses(address_table *t, const input *in)
{
    int64_t course = course_of(in);
    t->period = course / gcd(in->stride, course) * in->stride;
    t->elements = in->block;
    if (in->stride == 1)
        return;
    steps s = find_steps(in->stride, course, in->block, t->period);
    spot at = spot_of(lowest_cell(in), in->block, t->period);
    int64_t start = at.column;
    t->elements = 0;
    do {
        t->address[at.column] = (uint32_t)t->elements++;
        go_on(&at, &s, in->block, t->period);
    } while (at.column != start);
}

void build_cells(cell_table *c, const address_table *t, const input *in)
{
    if (in->stride == 1)
        return;
    steps s = find_steps(in->stride, course_of(in), in->block, t->period);
    spot at = spot_of(lowest_cell(in), in->block, t->period);
    for (int64_t address = 0; address < t->elements; address++) {
        c->cell[address] = at.rest;
        go_on(&at, &s, in->block, t->period);
    }
}

uint32_t address_of(const address_table *t, const input *in, int64_t cell)
{
    int64_t column = cell % in->block;
    uint32_t lowest = in->stride == 1 ? (uint32_t)column : t->address[column];
    return (uint32_t)(cell / t->period * t->elements) + lowest;
}

int64_t element_of(const address_table *t, const cell_table *c, const input *in, int64_t address)
{
    int64_t rest = address % t->elements, periods = address / t->elements;
    int64_t cell = in->stride == 1 ? in->processor * in->block + rest : c->cell[rest];
    return (periods * t->period + cell) / in->stride;
}

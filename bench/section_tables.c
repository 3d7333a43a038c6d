/* The table walk of Kennedy et al. and the Itable method of document 004, section 9.1. */
#include "lattice.h"
#include "peers.h"

static uint32_t address_at(const address_table *t, const input *in, const spot *at)
{
    uint32_t lowest = in->stride == 1 ? (uint32_t)at->column : t->address[at->column];
    return (uint32_t)(at->periods * t->elements) + lowest;
}

void build_moves(move_table *m, const address_table *t, const input *in, int64_t position)
{
    steps s = find_steps(in->stride * in->step, course_of(in), in->block, t->period);
    spot at = spot_of(cell_of(in, position), in->block, t->period);
    int64_t start = at.column;
    uint32_t address = address_at(t, in, &at);
    do {
        int64_t column = at.column;
        go_on(&at, &s, in->block, t->period);
        uint32_t next = address_at(t, in, &at);
        m->next[column] = (uint32_t)at.column;
        m->move[column] = next - address;
        address = next;
    } while (at.column != start);
}

void walk_tables(const move_table *m, const address_table *t, const input *in, int64_t position, uint32_t *list,
                 size_t entries)
{
    int64_t cell = cell_of(in, position);
    uint32_t address = address_of(t, in, cell);
    size_t column = (size_t)(cell % in->block); /* as wide as an index: a narrower one is widened at each turn */
    for (size_t i = 0; i < entries; i++) {
        list[i] = address;
        address += m->move[column];
        column = m->next[column];
    }
}

void build_pattern(pattern_table *p, const address_table *t, const input *in, int64_t position)
{
    steps s = find_steps(in->stride * in->step, course_of(in), in->block, t->period);
    spot at = spot_of(cell_of(in, position), in->block, t->period);
    int64_t start = at.column;
    size_t length = 0;
    do {
        p->address[length++] = address_at(t, in, &at);
        go_on(&at, &s, in->block, t->period);
    } while (at.column != start);
    p->length = length;
    p->growth = address_at(t, in, &at) - p->address[0];
}

void list_by_pattern(const pattern_table *p, uint32_t *list, size_t entries)
{
    uint32_t grown = 0;
    for (size_t i = 0; i < entries; i += p->length, grown += p->growth) {
        size_t left = entries - i, length = p->length < left ? p->length : left;
        for (size_t j = 0; j < length; j++)
            list[i + j] = p->address[j] + grown;
    }
}

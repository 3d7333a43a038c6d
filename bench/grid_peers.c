/* Tables of the dimensions of a grid, and nested loops over them. */
#include "grid_peers.h"

#include "peers.h"

static address_table addresses;
static move_table moves;

void build_table(dimension_table *t, const grid_part *part)
{
    const job *j = &part->list;
    t->length = j->entries;
    t->elements = (uint32_t)part->elements;
    build_addresses(&addresses, &j->in);
    build_moves(&moves, &addresses, &j->in, j->places[0]);
    walk_tables(&moves, &addresses, &j->in, j->places[0], t->address, t->length);
}

void list_by_tables(const dimension_table t[DIMENSIONS], uint32_t *list)
{
    size_t n = 0;
    for (size_t k = 0; k < t[2].length; k++)
        for (size_t j = 0; j < t[1].length; j++) {
            uint32_t base = t[0].elements * (t[1].address[j] + t[1].elements * t[2].address[k]);
            for (size_t i = 0; i < t[0].length; i++)
                list[n++] = base + t[0].address[i];
        }
}

__attribute__((optimize("no-tree-vectorize")))
void list_by_turns(const dimension_table t[DIMENSIONS], uint32_t *list)
{
    size_t n = 0;
    for (size_t k = 0; k < t[2].length; k++)
        for (size_t j = 0; j < t[1].length; j++) {
            uint32_t base = t[0].elements * (t[1].address[j] + t[1].elements * t[2].address[k]);
            for (size_t i = 0; i < t[0].length; i++)
                list[n++] = base + t[0].address[i];
        }
}

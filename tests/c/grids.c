/*
 * Prints owners, addresses, sections and refusals of arrays of rank 1 to 3 on grids of processors, as a C program sees
 * them. Where no dimension is dealt by sizes, the form of each call without lists is compared.
 */
#include <inttypes.h>
#include <stddef.h>
#include <stdint.h>
#include <stdio.h>
#include <string.h>

#include "filled.h"
#include "hpfaddr.h"
#include "same.h"

enum { ENTRIES = 3, MEMORY = 32 };

/* A section of a grid, and the sizes of each dimension, if it has any. */
typedef struct {
    hpf_grid_section section;
    const int32_t *sizes[3];
    size_t bytes[3];
} example;

#define BYTES(e, i) (const uint8_t *)(e).sizes[i], (e).bytes[i]
#define LISTS(e) BYTES(e, 0), BYTES(e, 1), BYTES(e, 2)

static const int32_t one_and_three[] = {1, 3}, all_on_one[] = {0, 2};

/* x(0:5, 0:3) in blocks of 2 and of 1 on 2 x 2 processors. */
static example matrix(hpf_triplet first, hpf_triplet second)
{
    const hpf_mapping six = {.cells = 6, .processors = 2, .block = 2, .stride = 1, .size = 6};
    const hpf_mapping four = {.cells = 4, .processors = 2, .block = 1, .stride = 1, .size = 4};
    hpf_grid grid = {.rank = 2, .dimensions = {hpf_cyclic_dimension(six), hpf_cyclic_dimension(four)}};
    return (example){.section = {.grid = grid, .triplets = {first, second}}};
}

/* x(1:4, 0:3, 0:1) on 2 x 2 x 2 processors: by the sizes 1 and 3, in blocks of 1, and by the sizes 0 and 2. */
static example cube(hpf_triplet first, hpf_triplet second, hpf_triplet third)
{
    const hpf_gen_block_mapping uneven = {.cells = 4, .processors = 2, .stride = 1, .offset = -1, .size = 4,
                                          .array_lower = 1};
    const hpf_dimension last = {.cells = 2, .processors = 2, .dealing = HPF_GEN_BLOCK, .stride = 1, .size = 2};
    example e = matrix(first, second);
    e.section.grid.rank = 3;
    e.section.grid.dimensions[0] = hpf_gen_block_dimension(uneven);
    e.section.grid.dimensions[2] = last;
    e.section.triplets[2] = third;
    e.sizes[0] = one_and_three;
    e.bytes[0] = sizeof one_and_three;
    e.sizes[2] = all_on_one;
    e.bytes[2] = sizeof all_on_one;
    return e;
}

static int has_lists(const example *e)
{
    return e->bytes[0] + e->bytes[1] + e->bytes[2] > 0;
}

static hpf_owned ownership(example e, int64_t first, int64_t second, int64_t third)
{
    hpf_owned owned = hpf_grid_ownership(e.section.grid, LISTS(e), first, second, third);
    hpf_owned other = hpf_cyclic_grid_ownership(e.section.grid, first, second, third);
    if (!has_lists(&e))
        expect_same(&owned, &other, sizeof owned);
    return owned;
}

static hpf_grid_found going_back(example e, int64_t processor, int64_t address)
{
    hpf_grid_found found = hpf_grid_going_back(e.section.grid, LISTS(e), processor, address);
    hpf_grid_found other = hpf_cyclic_grid_going_back(e.section.grid, processor, address);
    if (!has_lists(&e))
        expect_same(&found, &other, sizeof found);
    return found;
}

static hpf_grid_steps section_steps(example e)
{
    hpf_grid_steps steps = hpf_grid_section_steps(e.section, LISTS(e));
    hpf_grid_steps other = hpf_cyclic_grid_section_steps(e.section);
    if (!has_lists(&e))
        expect_same(&steps, &other, sizeof steps);
    return steps;
}

static hpf_placed first_place(example e, int64_t processor)
{
    hpf_placed placed = hpf_grid_first_place(e.section, LISTS(e), processor);
    hpf_placed other = hpf_cyclic_grid_first_place(e.section, processor);
    if (!has_lists(&e))
        expect_same(&placed, &other, sizeof placed);
    return placed;
}

/* The other form fills a list with the same bytes. */
static hpf_filled fill(example e, int64_t processor, int64_t place, int64_t quota, uint8_t *list, size_t list_bytes)
{
    uint8_t bytes[MEMORY], *other = list_bytes == 0 ? NULL : bytes;
    for (size_t i = 0; i < list_bytes; i++)
        bytes[i] = list[i];
    hpf_filled filled = hpf_grid_fill(e.section, LISTS(e), processor, place, quota, list, list_bytes);
    if (!has_lists(&e)) {
        hpf_filled same = hpf_cyclic_grid_fill(e.section, processor, place, quota, other, list_bytes);
        expect_same(&filled, &same, sizeof filled);
        expect_same(list, other, list_bytes);
    }
    return filled;
}

/* Each processor's elements by address, there and back. */
static void print_array(const char *name, example e, int64_t processors)
{
    printf("%s\n", name);
    for (int64_t processor = 0; processor < processors; processor++) {
        printf("processor %" PRId64 " holds", processor);
        for (int64_t address = 0; going_back(e, processor, address).refusal == HPF_ACCEPTED; address++) {
            hpf_grid_found found = going_back(e, processor, address);
            hpf_owned owned = ownership(e, found.first, found.second, found.third);
            if (owned.processor != processor || owned.address != address)
                printf(" other than");
            printf(" %" PRId32 ",%" PRId32 ",%" PRId32, found.first, found.second, found.third);
        }
        printf("\n");
    }
}

/* A processor's whole list, in fills of a few entries. */
static void print_list(example e, int64_t processor, int64_t count)
{
    uint8_t list[ENTRIES * ENTRY_BYTES] = {0};
    int64_t place = first_place(e, processor).place;
    int32_t fills = 0, tries = 0;
    printf("processor %" PRId64 " from place %" PRId64 ":", processor, place);
    while (place != count) {
        hpf_filled filled = fill(e, processor, place, HPF_LARGEST_QUOTA, list, sizeof list);
        if (filled.refusal != HPF_ACCEPTED)
            break;
        print_addresses(list, filled.entries);
        fills += 1;
        tries += filled.tries;
        place = filled.place;
    }
    printf(" (%" PRId32 " tries, %" PRId32 " fills)\n", tries, fills);
}

/* The count, and the count and the steps of each dimension. */
static void print_section(const char *name, example e, int64_t processors)
{
    hpf_grid_steps steps = section_steps(e);
    printf("%s has %" PRId64 " elements\n", name, steps.count);
    for (int dimension = 0; dimension < 3; dimension++) {
        hpf_steps s = steps.dimensions[dimension];
        printf("%" PRId64 " with steps %" PRId64 ": %" PRId64 " (%" PRId64 ", %" PRId64 "), %" PRId64 " (%" PRId64
               ", %" PRId64 ")\n", s.count, s.steps, s.cells, s.courses, s.column, s.return_cells, s.return_courses,
               s.return_column);
    }
    for (int64_t processor = 0; processor < processors; processor++)
        print_list(e, processor, steps.count);
}

/* One fill into a list at an odd place in memory, and how many bytes it wrote there. */
static void print_fill(const char *name, example e, int64_t processor, int64_t place, int64_t quota, size_t list_bytes)
{
    uint8_t memory[MEMORY], *list = list_bytes == 0 ? NULL : memory + 1;
    memset(memory, UNTOUCHED, sizeof memory);
    hpf_filled filled = fill(e, processor, place, quota, list, list_bytes);
    print_written(name, filled, memory, sizeof memory);
}

static void print_fills(example e)
{
    print_fill("quota 3", e, 1, 1, HPF_LEAST_QUOTA, 23);
    print_fill("quota 4, to the row's end", e, 1, 1, 4, 23);
    print_fill("quota 6, into the next row", e, 1, 1, 6, 23);
    print_fill("one entry", e, 1, 2, 6, 7);
    print_fill("the last", e, 1, 12, 6, 23);
    print_fill("at the count", e, 1, 20, 6, 23);
    print_fill("no list", e, 1, 1, 6, 0);
    print_fill("quota 2", e, 1, 1, HPF_LEAST_QUOTA - 1, 23);
    print_fill("place in a row of another", e, 1, 6, 6, 23);
    print_fill("processor 4", e, 4, 1, 6, 23);
}

/* All calls on a grid that is refused. */
static void print_refused(const char *name, example e)
{
    printf("%s: %" PRId32 " %" PRId32 " %" PRId64 " %" PRId32 "\n", name, ownership(e, 0, 0, 0).refusal,
           going_back(e, 0, 0).refusal, section_steps(e).refusal, first_place(e, 0).refusal);
    print_fill(name, e, 0, 0, 6, 23);
}

static void print_refusals(void)
{
    const hpf_triplet whole = {0, 3, 1}, rows = {1, 4, 1}, both = {0, 1, 1};
    example lawful = matrix(whole, whole), e = lawful;
    e.section.grid.rank = 4;
    print_refused("rank 4", e);
    e.section.grid.dimensions[0].cells = e.section.grid.rank = 0;
    print_refused("rank 0, no cells", e);
    e = lawful;
    e.section.grid.dimensions[0].processors = 32;
    e.section.grid.dimensions[1].processors = 33;
    print_refused("32 x 33 processors", e);
    e.section.triplets[1].stride = 0;
    print_refused("32 x 33 processors, step 0", e);
    e.section.triplets[0].upper = 6;
    e.section.grid.dimensions[1].block = 0;
    print_refused("block 0 after elements past the end", e);
    e = lawful;
    for (int dimension = 0; dimension < 2; dimension++)
        e.section.grid.dimensions[dimension].cells = e.section.grid.dimensions[dimension].size = 46341;
    print_refused("46341 x 46341 elements", e);
    e = cube(rows, whole, both);
    e.bytes[2] = 7;
    print_refused("a byte short", e);
    e.sizes[2] = NULL;
    e.bytes[2] = 0;
    print_refused("no sizes", e);
    e.section.grid.rank = 2;
    print_fill("no sizes past the rank", e, 0, 0, 6, 23);
    printf("grid %d\n", HPF_REFUSED_GRID);
}

/* x(-2:2) in blocks of 3, alone and as a grid of rank 1 whose other dimensions are nonsense. */
static void print_rank_one(void)
{
    const hpf_mapping m = {.cells = 11, .processors = 2, .block = 3, .stride = 2, .offset = 1, .size = 5,
                           .array_lower = -2, .template_lower = -3};
    const hpf_triplet down = {2, -2, -1};
    const hpf_dimension nonsense = {.cells = -1, .dealing = HPF_GEN_BLOCK};
    example e = {.section = {.grid = {.rank = 1, .dimensions = {hpf_cyclic_dimension(m), nonsense, nonsense}},
                             .triplets = {down}}};
    for (int64_t index = -3; index <= 3; index++) {
        hpf_owned alone = hpf_ownership_of(m, index), owned = ownership(e, index, -1, -1);
        expect_same(&alone, &owned, sizeof alone);
    }
    for (int64_t address = 0; address <= 3; address++) {
        hpf_found alone = hpf_going_back_of(m, 0, address);
        hpf_grid_found found = going_back(e, 0, address), expected = {alone.refusal, alone.index, 0, 0};
        expect_same(&expected, &found, sizeof found);
    }
    print_section("x(2:-2:-1)", e, 2);
}

int main(void)
{
    const hpf_triplet inner = {1, 5, 1}, all = {0, 3, 1}, none = {2, 1, 1}, every_third = {0, 3, 3}, both = {0, 1, 1};
    const hpf_triplet down = {4, 2, -1};
    print_array("x(0:5, 0:3)", matrix(inner, all), 4);
    print_array("x(1:4, 0:3, 0:1)", cube(inner, all, both), 8);
    print_section("x(1:5, 0:3)", matrix(inner, all), 4);
    print_section("x(1:5, 2:1)", matrix(inner, none), 4);
    print_section("x(4:2:-1, 0:3:3, 0:1)", cube(down, every_third, both), 8);
    print_rank_one();
    print_fills(matrix(inner, all));
    print_refusals();
    return 0;
}

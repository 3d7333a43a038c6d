/* Prints steps, places, lists and refusals of sections, as a C program sees them, by both forms of each call. */
#include <inttypes.h>
#include <stddef.h>
#include <stdint.h>
#include <stdio.h>
#include <string.h>

#include "filled.h"
#include "hpfaddr.h"
#include "same.h"

enum { ENTRIES = 3, MEMORY = 24 };

static const hpf_mapping dense = {96, 3, 4, 1, 0, 96, 0, 0};
static const hpf_mapping every_third_cell = {144, 4, 4, 3, 0, 48, 0, 0};
static const hpf_mapping small = {12, 3, 2, 1, 0, 12, 0, 0};
static const hpf_mapping no_elements = {1, 1, 1, 1, 0, 0, 0, 0};
/* A(1:100) aligned with T(2*j-2), and A(-3:20) with T(2*j+1) of a template from -5 on. */
static const hpf_mapping from_one = {200, 4, 5, 2, -2, 100, 1, 0};
static const hpf_mapping from_minus_three = {47, 3, 4, 2, 1, 24, -3, -5};
static const hpf_triplet by_seven = {0, 95, 7};

static hpf_steps section_steps(hpf_mapping m, hpf_triplet s)
{
    hpf_steps typed = hpf_section_steps_of(m, s);
    hpf_steps plain = hpf_section_steps(m.cells, m.processors, m.block, m.stride, m.offset, m.size, m.array_lower,
                                        m.template_lower, s.lower, s.upper, s.stride);
    expect_same(&plain, &typed, sizeof plain);
    return plain;
}

static hpf_placed first_place(hpf_mapping m, hpf_triplet s, int64_t processor)
{
    hpf_placed typed = hpf_first_place_of(m, s, processor);
    hpf_placed plain = hpf_first_place(m.cells, m.processors, m.block, m.stride, m.offset, m.size, m.array_lower,
                                       m.template_lower, s.lower, s.upper, s.stride, processor);
    expect_same(&plain, &typed, sizeof plain);
    return plain;
}

/* The other form fills a list with the same bytes. */
static hpf_filled fill(hpf_mapping m, hpf_triplet s, int64_t processor, int64_t place, int64_t quota, uint8_t *list,
                       size_t list_bytes)
{
    uint8_t bytes[MEMORY], *other = list_bytes == 0 ? NULL : bytes;
    for (size_t i = 0; i < list_bytes; i++)
        bytes[i] = list[i];
    hpf_filled typed = hpf_fill_of(m, s, processor, place, quota, other, list_bytes);
    hpf_filled plain = hpf_fill(m.cells, m.processors, m.block, m.stride, m.offset, m.size, m.array_lower,
                                m.template_lower, s.lower, s.upper, s.stride, processor, place, quota, list,
                                list_bytes);
    expect_same(&plain, &typed, sizeof plain);
    expect_same(list, other, list_bytes);
    return plain;
}

/* A processor's whole list, in fills of a few entries. */
static void print_list(hpf_mapping m, hpf_triplet s, int64_t processor)
{
    uint8_t list[ENTRIES * ENTRY_BYTES] = {0};
    int64_t count = section_steps(m, s).count;
    int64_t place = first_place(m, s, processor).place;
    int32_t fills = 0, tries = 0;
    printf("processor %" PRId64 " from place %" PRId64 ":", processor, place);
    while (place != count) {
        hpf_filled filled = fill(m, s, processor, place, HPF_LARGEST_QUOTA, list, sizeof list);
        if (filled.refusal != HPF_ACCEPTED)
            break;
        print_addresses(list, filled.entries);
        fills += 1;
        tries += filled.tries;
        place = filled.place;
    }
    printf(" (%" PRId32 " tries, %" PRId32 " fills)\n", tries, fills);
}

static void print_steps(hpf_mapping m, hpf_triplet s)
{
    hpf_steps steps = section_steps(m, s);
    printf("%" PRId64 ":%" PRId64 ":%" PRId64 " has %" PRId64 " elements, steps %" PRId64, s.lower, s.upper, s.stride,
           steps.count, steps.steps);
    if (steps.steps >= 1)
        printf(", %" PRId64 " (%" PRId64 ", %" PRId64 ")", steps.cells, steps.courses, steps.column);
    if (steps.steps == 2)
        printf(", %" PRId64 " (%" PRId64 ", %" PRId64 ")", steps.return_cells, steps.return_courses,
               steps.return_column);
    printf("\n");
}

static void print_section(hpf_mapping m, hpf_triplet s)
{
    print_steps(m, s);
    for (int64_t processor = 0; processor < m.processors; processor++)
        print_list(m, s, processor);
}

/* One fill of the dense array into a list at an odd place in memory, and how many bytes it wrote there. */
static void print_fill(const char *name, hpf_triplet s, int64_t processor, int64_t place, int64_t quota,
                       size_t list_bytes)
{
    uint8_t memory[MEMORY], *list = list_bytes == 0 ? NULL : memory + 1;
    memset(memory, UNTOUCHED, sizeof memory);
    hpf_filled filled = fill(dense, s, processor, place, quota, list, list_bytes);
    print_written(name, filled, memory, sizeof memory);
}

static void print_fills(void)
{
    print_fill("quota 4", by_seven, 0, 0, 4, 15);
    print_fill("quota 4 again", by_seven, 0, 7, 4, 15);
    print_fill("at the count", by_seven, 0, 14, 4, 15);
    print_fill("three entries", by_seven, 0, 0, 9, 15);
    print_fill("three bytes", by_seven, 0, 2, 4, 3);
    print_fill("no list", by_seven, 0, 2, 4, 0);
    print_fill("quota 3", by_seven, 0, 0, HPF_LEAST_QUOTA, 15);
    print_fill("quota 2", by_seven, 0, 0, HPF_LEAST_QUOTA - 1, 15);
    print_fill("quota 1000000", by_seven, 0, 0, HPF_LARGEST_QUOTA, 20);
    print_fill("quota 1000001", by_seven, 0, 0, HPF_LARGEST_QUOTA + 1, 20);
    print_fill("place of another", by_seven, 0, 1, 4, 15);
    print_fill("processor 3", by_seven, 3, 0, 4, 15);
    print_fill("beyond the array", (hpf_triplet){0, 98, 7}, 0, 0, 4, 15);
    print_fill("step 0", (hpf_triplet){0, 95, 0}, 0, 0, 4, 15);
}

/* Refusals of the other calls, and of a fill with every fault. */
static void print_refusals(void)
{
    const int64_t least = INT64_MIN;
    const hpf_mapping no_mapping = {least, least, least, least, least, least, least, least};
    const hpf_triplet no_section = {least, least, least};
    hpf_placed placed = first_place(dense, by_seven, -1);
    printf("steps before the array: %" PRId64 "\n", section_steps(from_one, (hpf_triplet){0, 100, 7}).refusal);
    printf("steps beyond the array: %" PRId64 "\n", section_steps(dense, (hpf_triplet){0, 98, 7}).refusal);
    printf("first place of -1: %" PRId32 " %" PRId32 "\n", placed.refusal, placed.place);
    print_filled("all at fault", fill(no_mapping, no_section, least, least, least, NULL, 0));
    printf("\n");
}

/* Each refusal by its name. */
static void print_names(void)
{
    printf("triplet %d\n", HPF_REFUSED_TRIPLET);
    printf("section %d\n", HPF_REFUSED_SECTION);
    printf("place %d\n", HPF_REFUSED_PLACE);
    printf("quota %d\n", HPF_REFUSED_QUOTA);
}

int main(void)
{
    print_section(dense, by_seven);
    print_section(dense, (hpf_triplet){91, 0, -7});
    print_section(every_third_cell, (hpf_triplet){0, 47, 3});
    print_section(small, (hpf_triplet){0, 11, 6});
    print_section(small, (hpf_triplet){9, 0, -4});
    print_section(no_elements, (hpf_triplet){5, 1, 3});
    print_section(from_one, (hpf_triplet){1, 100, 7});
    print_section(from_minus_three, (hpf_triplet){20, -3, -3});
    print_fills();
    print_refusals();
    print_names();
    return 0;
}

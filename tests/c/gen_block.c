/*
 * Prints owners, addresses, sections and refusals of arrays that are dealt by a list of sizes, as a C program sees
 * them, by both forms of each call.
 */
#include <inttypes.h>
#include <stddef.h>
#include <stdint.h>
#include <stdio.h>
#include <string.h>

#include "filled.h"
#include "hpfaddr.h"
#include "same.h"

enum { ENTRIES = 2, MEMORY = 32 };

#define SIZES(list) .sizes = (const uint8_t *)list, .sizes_bytes = sizeof list

static const int32_t by_work[] = {3, 0, 5, 4}, at_the_ends[] = {0, 9, 11, 0}, largest[] = {INT32_MAX, INT32_MAX};

/* A template of 10 cells, of which the last processor has 2. */
static const hpf_gen_block_mapping uneven = {.cells = 10, .processors = 4, SIZES(by_work), .stride = 1, .size = 10};
/* A(1:6) aligned with T(3*j-5) of a template from -4 on. */
static const hpf_gen_block_mapping from_one = {
    .cells = 20, .processors = 4, SIZES(at_the_ends), .stride = 3, .offset = -5, .size = 6, .array_lower = 1,
    .template_lower = -4,
};
static const hpf_gen_block_mapping long_runs = {
    .cells = 2147483647, .processors = 2, SIZES(largest), .stride = 1, .size = 2147483647,
};
static const hpf_triplet dense = {0, 9, 1};

static hpf_owned ownership(hpf_gen_block_mapping m, int64_t index)
{
    hpf_owned typed = hpf_gen_block_ownership_of(m, index);
    hpf_owned plain = hpf_gen_block_ownership(m.cells, m.processors, m.sizes, m.sizes_bytes, m.stride, m.offset,
                                              m.size, m.array_lower, m.template_lower, index);
    expect_same(&plain, &typed, sizeof plain);
    return plain;
}

static hpf_found going_back(hpf_gen_block_mapping m, int64_t processor, int64_t address)
{
    hpf_found typed = hpf_gen_block_going_back_of(m, processor, address);
    hpf_found plain = hpf_gen_block_going_back(m.cells, m.processors, m.sizes, m.sizes_bytes, m.stride, m.offset,
                                               m.size, m.array_lower, m.template_lower, processor, address);
    expect_same(&plain, &typed, sizeof plain);
    return plain;
}

static hpf_counted local_count(hpf_gen_block_mapping m, int64_t processor)
{
    hpf_counted typed = hpf_gen_block_local_count_of(m, processor);
    hpf_counted plain = hpf_gen_block_local_count(m.cells, m.processors, m.sizes, m.sizes_bytes, m.stride, m.offset,
                                                  m.size, m.array_lower, m.template_lower, processor);
    expect_same(&plain, &typed, sizeof plain);
    return plain;
}

static hpf_steps section_steps(hpf_gen_block_mapping m, hpf_triplet s)
{
    hpf_steps typed = hpf_gen_block_section_steps_of(m, s);
    hpf_steps plain = hpf_gen_block_section_steps(m.cells, m.processors, m.sizes, m.sizes_bytes, m.stride, m.offset,
                                                  m.size, m.array_lower, m.template_lower, s.lower, s.upper,
                                                  s.stride);
    expect_same(&plain, &typed, sizeof plain);
    return plain;
}

static hpf_placed first_place(hpf_gen_block_mapping m, hpf_triplet s, int64_t processor)
{
    hpf_placed typed = hpf_gen_block_first_place_of(m, s, processor);
    hpf_placed plain = hpf_gen_block_first_place(m.cells, m.processors, m.sizes, m.sizes_bytes, m.stride, m.offset,
                                                 m.size, m.array_lower, m.template_lower, s.lower, s.upper, s.stride,
                                                 processor);
    expect_same(&plain, &typed, sizeof plain);
    return plain;
}

/* The other form fills a list with the same bytes. */
static hpf_filled fill(hpf_gen_block_mapping m, hpf_triplet s, int64_t processor, int64_t place, int64_t quota,
                       uint8_t *list, size_t list_bytes)
{
    uint8_t bytes[MEMORY], *other = list_bytes == 0 ? NULL : bytes;
    for (size_t i = 0; i < list_bytes; i++)
        bytes[i] = list[i];
    hpf_filled typed = hpf_gen_block_fill_of(m, s, processor, place, quota, other, list_bytes);
    hpf_filled plain = hpf_gen_block_fill(m.cells, m.processors, m.sizes, m.sizes_bytes, m.stride, m.offset, m.size,
                                          m.array_lower, m.template_lower, s.lower, s.upper, s.stride, processor,
                                          place, quota, list, list_bytes);
    expect_same(&plain, &typed, sizeof plain);
    expect_same(list, other, list_bytes);
    return plain;
}

/* Each processor's elements by address, there and back. */
static void print_array(hpf_gen_block_mapping m)
{
    for (int64_t processor = 0; processor < m.processors; processor++) {
        int32_t elements = local_count(m, processor).elements;
        printf("processor %" PRId64 " holds %" PRId32 ":", processor, elements);
        for (int32_t address = 0; address < elements; address++) {
            hpf_found found = going_back(m, processor, address);
            hpf_owned owned = ownership(m, found.index);
            printf(" %" PRId32, owned.processor == processor && owned.address == address ? found.index : UNTOUCHED);
        }
        printf("\n");
    }
}

/* A processor's whole list, in fills of a few entries. */
static void print_list(hpf_gen_block_mapping m, hpf_triplet s, int64_t processor, int64_t count)
{
    uint8_t list[ENTRIES * ENTRY_BYTES] = {0};
    int64_t place = first_place(m, s, processor).place;
    int32_t fills = 0, tries = 0;
    printf("processor %" PRId64 " from place %" PRId64 ":", processor, place);
    while (place != count) {
        hpf_filled filled = fill(m, s, processor, place, HPF_LARGEST_QUOTA, list, sizeof list);
        if (filled.refusal != HPF_ACCEPTED)
            break;
        print_addresses(list, filled.entries);
        fills += 1;
        tries += filled.tries;
        place = filled.place;
    }
    printf(" (%" PRId32 " tries, %" PRId32 " fills)\n", tries, fills);
}

static void print_section(hpf_gen_block_mapping m, hpf_triplet s)
{
    hpf_steps steps = section_steps(m, s);
    printf("%" PRId64 ":%" PRId64 ":%" PRId64 " has %" PRId64 " elements, steps %" PRId64, s.lower, s.upper, s.stride,
           steps.count, steps.steps);
    if (steps.steps == 1)
        printf(", %" PRId64 " (%" PRId64 ", %" PRId64 ")", steps.cells, steps.courses, steps.column);
    printf("\n");
    for (int64_t processor = 0; processor < m.processors; processor++)
        print_list(m, s, processor, steps.count);
}

/* One fill of the dense section into a list at an odd place in memory, and how many bytes it wrote there. */
static void print_fill(const char *name, hpf_gen_block_mapping m, int64_t processor, int64_t place, int64_t quota,
                       size_t list_bytes)
{
    uint8_t memory[MEMORY], *list = list_bytes == 0 ? NULL : memory + 1;
    memset(memory, UNTOUCHED, sizeof memory);
    hpf_filled filled = fill(m, dense, processor, place, quota, list, list_bytes);
    print_written(name, filled, memory, sizeof memory);
}

static void print_fills(void)
{
    print_fill("quota 3", uneven, 2, 3, HPF_LEAST_QUOTA, 23);
    print_fill("quota 5", uneven, 2, 4, 5, 23);
    print_fill("five entries", uneven, 2, 3, 7, 23);
    print_fill("three entries", uneven, 2, 3, 7, 15);
    print_fill("at the count", uneven, 2, 10, 7, 23);
    print_fill("no list", uneven, 2, 3, 7, 0);
    print_fill("quota 2", uneven, 2, 3, HPF_LEAST_QUOTA - 1, 23);
    print_fill("place of another", uneven, 2, 8, 7, 23);
    print_fill("processor 4", uneven, 4, 3, 7, 23);
}

/* All calls on a mapping that is refused. */
static void print_refused(const char *name, hpf_gen_block_mapping m)
{
    printf("%s: %" PRId32 " %" PRId32 " %" PRId32 " %" PRId64 " %" PRId32 "\n", name, ownership(m, 0).refusal,
           going_back(m, 0, 0).refusal, local_count(m, 0).refusal, section_steps(m, dense).refusal,
           first_place(m, dense, 0).refusal);
    print_fill(name, m, 0, 0, 7, 23);
}

static hpf_gen_block_mapping with_sizes(const int32_t *sizes, size_t bytes)
{
    hpf_gen_block_mapping m = uneven;
    m.sizes = bytes == 0 ? NULL : (const uint8_t *)sizes;
    m.sizes_bytes = bytes;
    return m;
}

static void print_refusals(void)
{
    static const int32_t one_less[] = {3, 0, 5, 1}, below_0[] = {11, 0, -1, 0}, least[] = {INT32_MIN, 10, 10, 10};
    static const int32_t one_more[] = {3, 0, 5, 4, 0};
    hpf_gen_block_mapping m = uneven;
    print_refused("sum 9", with_sizes(one_less, sizeof one_less));
    print_refused("size -1", with_sizes(below_0, sizeof below_0));
    print_refused("size -2147483648", with_sizes(least, sizeof least));
    print_refused("three sizes", with_sizes(by_work, 12));
    print_refused("five sizes", with_sizes(one_more, sizeof one_more));
    print_refused("a byte left over", with_sizes(one_more, 17));
    print_refused("no sizes", with_sizes(NULL, 0));
    m.processors = 0;
    print_refused("no processors", m);
    m = with_sizes(NULL, 0);
    m.stride = 0;
    print_refused("no sizes, stride 0", m);
    printf("gen_block %d\n", HPF_REFUSED_GEN_BLOCK);
}

int main(void)
{
    print_array(uneven);
    print_array(from_one);
    printf("the last of 2147483647: %" PRId32 "\n", ownership(long_runs, 2147483646).address);
    print_section(uneven, dense);
    print_section(uneven, (hpf_triplet){9, 0, -2});
    print_section(uneven, (hpf_triplet){4, 4, 3});
    print_section(from_one, (hpf_triplet){1, 6, 2});
    print_fills();
    print_refusals();
    return 0;
}

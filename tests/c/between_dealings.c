/*
 * Prints the transfers between arrays in blocks and arrays by sizes, and arrays by sizes saved and restored, as a C
 * program sees them, by both forms of each call.
 */
#include <inttypes.h>
#include <stddef.h>
#include <stdint.h>
#include <stdio.h>
#include <string.h>

#include "hpfaddr.h"
#include "same.h"

enum { COUNT = 10, ROOM = COUNT + 2, UNTOUCHED = -1 };

#define SIZES(list) .sizes = (const uint8_t *)list, .sizes_bytes = sizeof list

static const int32_t by_work[] = {3, 0, 5, 4}, at_the_ends[] = {0, 9, 21, 0}, one_less[] = {3, 0, 5, 1};

static const hpf_mapping in_blocks = {.cells = 10, .processors = 2, .block = 3, .stride = 1, .size = 10};
static const hpf_gen_block_mapping uneven = {.cells = 10, .processors = 4, SIZES(by_work), .stride = 1, .size = 10};
/* A(1:10) aligned with T(3*j-7) of a template from -4 on. */
static const hpf_gen_block_mapping from_one = {
    .cells = 30, .processors = 4, SIZES(at_the_ends), .stride = 3, .offset = -7, .size = 10, .array_lower = 1,
    .template_lower = -4,
};
static const hpf_gen_block_mapping too_small = {
    .cells = 10, .processors = 4, SIZES(one_less), .stride = 1, .size = 10,
};
static const hpf_triplet up = {0, 9, 1}, down = {9, 0, -1}, from_ten = {10, 1, -1};

/* The three lists: positions, sender's addresses, receiver's addresses. And those of the call's other form. */
static int32_t lists[3][ROOM], others[3][ROOM];

/* The two lists of a checkpoint, and those of its other form. */
static int64_t storage[ROOM], saved[ROOM], other_storage[ROOM], other_saved[ROOM];

static int32_t *list_of(int32_t list[ROOM], size_t entries)
{
    return entries == 0 ? NULL : list;
}

static hpf_transferred transfers(hpf_side l, hpf_side r, int64_t sender, int64_t receiver, size_t n)
{
    for (int32_t i = 0; i < 3; i++)
        for (int32_t j = 0; j < ROOM; j++)
            lists[i][j] = others[i][j] = UNTOUCHED;
    hpf_transferred typed = hpf_transfers_between_of(l, r, sender, receiver, list_of(others[0], n), n,
                                                     list_of(others[1], n), n, list_of(others[2], n), n);
    hpf_transferred plain =
        hpf_transfers_between(l.cells, l.processors, l.dealing, l.block, l.sizes, l.sizes_bytes, l.stride, l.offset,
                              l.size, l.array_lower, l.template_lower, l.lower, l.upper, l.step, r.cells,
                              r.processors, r.dealing, r.block, r.sizes, r.sizes_bytes, r.stride, r.offset, r.size,
                              r.array_lower, r.template_lower, r.lower, r.upper, r.step, sender, receiver,
                              list_of(lists[0], n), n, list_of(lists[1], n), n, list_of(lists[2], n), n);
    expect_same(&plain, &typed, sizeof plain);
    expect_same(lists, others, sizeof lists);
    return plain;
}

static void print_pairs(hpf_side l, hpf_side r)
{
    for (int64_t sender = 0; sender < r.processors; sender++)
        for (int64_t receiver = 0; receiver < l.processors; receiver++) {
            int32_t entries = transfers(l, r, sender, receiver, COUNT).entries;
            printf("%" PRId64 " to %" PRId64 ":", sender, receiver);
            for (int32_t i = 0; i < entries; i++)
                printf(" %" PRId32 " (%" PRId32 " to %" PRId32 ")", lists[0][i], lists[1][i], lists[2][i]);
            printf("\n");
        }
}

/* One call, and how many elements of the lists it wrote. */
static void print_call(const char *name, hpf_side l, hpf_side r, int64_t sender, int64_t receiver, size_t n)
{
    hpf_transferred answer = transfers(l, r, sender, receiver, n);
    int32_t written = 0;
    for (int32_t i = 0; i < ROOM; i++)
        written += (lists[0][i] != UNTOUCHED) + (lists[1][i] != UNTOUCHED) + (lists[2][i] != UNTOUCHED);
    printf("%s: %" PRId32 " %" PRId32 " %" PRId32 ", %" PRId32 " written\n", name, answer.refusal, answer.entries,
           answer.needed, written);
}

/* Of block and sizes only what concerns the dealing is looked at. */
static void print_dealings(hpf_side blocks, hpf_side sizes)
{
    const int64_t dealings[] = {HPF_GEN_BLOCK, -1, INT64_C(1) << 32, INT64_MIN};
    blocks.sizes = (const uint8_t *)one_less;
    blocks.sizes_bytes = 7;
    sizes.block = 65537;
    for (size_t i = 0; i < sizeof dealings / sizeof dealings[0]; i++) {
        sizes.dealing = dealings[i];
        print_call("by sizes", sizes, blocks, 1, 2, COUNT);
    }
    sizes.dealing = HPF_CYCLIC;
    print_call("in blocks of 65537", sizes, blocks, 1, 2, COUNT);
    blocks.dealing = HPF_GEN_BLOCK;
    print_call("by 7 bytes", blocks, sizes, 1, 2, COUNT);
}

static void print_calls(hpf_side blocks, hpf_side sizes, hpf_side sum_9)
{
    print_call("exact lists", sizes, blocks, 1, 2, 3);
    print_call("longer lists", sizes, blocks, 1, 2, ROOM);
    print_call("short lists", sizes, blocks, 1, 2, 2);
    print_call("no lists", sizes, blocks, 1, 2, 0);
    print_call("no lists needed", sizes, blocks, 1, 1, 0);
    print_call("sender 2", sizes, blocks, 2, 2, 3);
    print_call("receiver 4", sizes, blocks, 1, 4, 3);
    print_call("sum 9 on the left", sum_9, blocks, 1, 2, 3);
    print_call("sum 9 on the right", blocks, sum_9, 1, 1, 3);
    blocks.block = 0;
    print_call("sum 9 and block 0", sum_9, blocks, 1, 2, 3);
    print_call("block 0 and sum 9", blocks, sum_9, 1, 2, 3);
}

static void expect_same_copies(hpf_copied plain, hpf_copied typed)
{
    expect_same(&plain, &typed, sizeof plain);
    expect_same(storage, other_storage, sizeof storage);
    expect_same(saved, other_saved, sizeof saved);
}

static hpf_copied checkpoint(hpf_gen_block_mapping m, size_t words)
{
    hpf_copied typed = hpf_gen_block_checkpoint_of(m, other_storage, words, other_saved, words);
    hpf_copied plain = hpf_gen_block_checkpoint(m.cells, m.processors, m.sizes, m.sizes_bytes, m.stride, m.offset,
                                                m.size, m.array_lower, m.template_lower, storage, words, saved,
                                                words);
    expect_same_copies(plain, typed);
    return plain;
}

static hpf_copied restore(hpf_gen_block_mapping m, size_t words)
{
    hpf_copied typed = hpf_gen_block_restore_of(m, other_saved, words, other_storage, words);
    hpf_copied plain = hpf_gen_block_restore(m.cells, m.processors, m.sizes, m.sizes_bytes, m.stride, m.offset,
                                             m.size, m.array_lower, m.template_lower, saved, words, storage, words);
    expect_same_copies(plain, typed);
    return plain;
}

/* Words of an array in blocks, saved; restored by sizes; and saved again. */
static void print_moved(const char *name, hpf_gen_block_mapping m, size_t words)
{
    for (int32_t i = 0; i < ROOM; i++) {
        storage[i] = other_storage[i] = i;
        saved[i] = UNTOUCHED;
    }
    hpf_checkpoint_of(in_blocks, storage, ROOM, saved, ROOM);
    memcpy(other_saved, saved, sizeof saved);
    hpf_copied restored = restore(m, words);
    printf("%s restored, %" PRId32 " %" PRId32 ":", name, restored.refusal, restored.needed);
    for (int32_t i = 0; i < ROOM; i++)
        printf(" %" PRId64, storage[i]);
    for (int32_t i = 0; i < ROOM; i++)
        saved[i] = other_saved[i] = UNTOUCHED;
    hpf_copied copied = checkpoint(m, words);
    printf("; saved, %" PRId32 " %" PRId32 ":", copied.refusal, copied.needed);
    for (int32_t i = 0; i < ROOM; i++)
        printf(" %" PRId64, saved[i]);
    printf("\n");
}

int main(void)
{
    print_pairs(hpf_gen_block_side(uneven, up), hpf_cyclic_side(in_blocks, down));
    print_pairs(hpf_cyclic_side(in_blocks, up), hpf_gen_block_side(uneven, down));
    print_pairs(hpf_gen_block_side(uneven, up), hpf_gen_block_side(from_one, from_ten));
    print_calls(hpf_cyclic_side(in_blocks, down), hpf_gen_block_side(uneven, up), hpf_gen_block_side(too_small, up));
    print_dealings(hpf_cyclic_side(in_blocks, down), hpf_gen_block_side(uneven, up));
    print_moved("uneven", uneven, COUNT);
    print_moved("from one", from_one, ROOM);
    print_moved("nine words", uneven, COUNT - 1);
    print_moved("sum 9", too_small, COUNT);
    return 0;
}

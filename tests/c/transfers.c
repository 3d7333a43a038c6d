/*
 * Prints the transfers of an array assignment, pair by pair, and refusals, as a C program sees them, by both forms of
 * the call.
 */
#include <inttypes.h>
#include <stddef.h>
#include <stdint.h>
#include <stdio.h>

#include "hpfaddr.h"
#include "same.h"

enum { COUNT = 14, ROOM = COUNT + 2, UNTOUCHED = -1 };

typedef struct side {
    hpf_mapping m;
    hpf_triplet s;
} side;

static const side by_seven = {{96, 3, 4, 1, 0, 96, 0, 0}, {0, 95, 7}};
static const side downwards = {{144, 4, 4, 3, 0, 48, 0, 0}, {41, 2, -3}};
static const side one_less = {{144, 4, 4, 3, 0, 48, 0, 0}, {41, 5, -3}};
static const side beyond = {{96, 3, 4, 1, 0, 96, 0, 0}, {0, 98, 7}};
static const side no_processors = {{96, 0, 4, 1, 0, 96, 0, 0}, {0, 95, 7}};
static const side no_bounds = {{96, 3, 4, 1, 0, 96, 2147483648, 0}, {0, 95, 7}};
/* A(1:100) aligned with T(2*j-2), and A(-3:20) with T(2*j+1) of a template from -5 on. */
static const side from_one = {{200, 4, 5, 2, -2, 100, 1, 0}, {3, 55, 4}};
static const side from_minus_three = {{47, 3, 4, 2, 1, 24, -3, -5}, {10, -3, -1}};

/* The three lists: positions, sender's addresses, receiver's addresses. And those of the call's other form. */
static int32_t lists[3][ROOM], others[3][ROOM];

static void clear(void)
{
    for (int32_t i = 0; i < 3; i++)
        for (int32_t j = 0; j < ROOM; j++)
            lists[i][j] = others[i][j] = UNTOUCHED;
}

static int32_t *list_of(int32_t list[ROOM], size_t entries)
{
    return entries == 0 ? NULL : list;
}

static hpf_transferred transfers(side l, side r, int64_t sender, int64_t receiver, const size_t n[3])
{
    clear();
    hpf_transferred typed =
        hpf_transfers_of(l.m, l.s, r.m, r.s, sender, receiver, list_of(others[0], n[0]), n[0],
                         list_of(others[1], n[1]), n[1], list_of(others[2], n[2]), n[2]);
    hpf_transferred plain =
        hpf_transfers(l.m.cells, l.m.processors, l.m.block, l.m.stride, l.m.offset, l.m.size, l.m.array_lower,
                      l.m.template_lower, l.s.lower, l.s.upper, l.s.stride, r.m.cells, r.m.processors, r.m.block,
                      r.m.stride, r.m.offset, r.m.size, r.m.array_lower, r.m.template_lower, r.s.lower, r.s.upper,
                      r.s.stride, sender, receiver, list_of(lists[0], n[0]), n[0], list_of(lists[1], n[1]), n[1],
                      list_of(lists[2], n[2]), n[2]);
    expect_same(&plain, &typed, sizeof plain);
    expect_same(lists, others, sizeof lists);
    return plain;
}

/* The entries that the lists hold, in the lists' order. */
static void print_entries(int32_t entries)
{
    for (int32_t i = 0; i < entries; i++)
        printf(" %" PRId32 " (%" PRId32 " to %" PRId32 ")", lists[0][i], lists[1][i], lists[2][i]);
}

static void print_pairs(side l, side r)
{
    const size_t entries[3] = {COUNT, COUNT, COUNT};
    for (int64_t sender = 0; sender < r.m.processors; sender++)
        for (int64_t receiver = 0; receiver < l.m.processors; receiver++) {
            printf("%" PRId64 " to %" PRId64 ":", sender, receiver);
            print_entries(transfers(l, r, sender, receiver, entries).entries);
            printf("\n");
        }
}

/* One call, and how many elements of the lists it wrote. */
static void print_call(const char *name, side l, side r, int64_t sender, int64_t receiver, size_t positions, size_t sent,
                       size_t received)
{
    const size_t entries[3] = {positions, sent, received};
    hpf_transferred answer = transfers(l, r, sender, receiver, entries);
    int32_t written = 0;
    for (int32_t i = 0; i < ROOM; i++)
        written += (lists[0][i] != UNTOUCHED) + (lists[1][i] != UNTOUCHED) + (lists[2][i] != UNTOUCHED);
    printf("%s: %" PRId32 " %" PRId32 " %" PRId32 ", %" PRId32 " written\n", name, answer.refusal, answer.entries,
           answer.needed, written);
}

int main(void)
{
    print_pairs(by_seven, downwards);
    print_pairs(downwards, by_seven);
    print_pairs(from_one, from_minus_three);
    print_call("exact lists", by_seven, downwards, 2, 0, 3, 3, 3);
    print_call("longer lists", by_seven, downwards, 2, 0, 9, 3, ROOM);
    print_call("few positions", by_seven, downwards, 2, 0, 2, 3, 3);
    print_call("few sender's addresses", by_seven, downwards, 2, 0, 3, 2, 3);
    print_call("few receiver's addresses", by_seven, downwards, 2, 0, 3, 3, 2);
    print_call("no lists", by_seven, downwards, 2, 0, 0, 0, 0);
    print_call("no lists needed", by_seven, downwards, 2, 2, 0, 0, 0);
    print_call("sender -1", by_seven, downwards, -1, 0, 0, 0, 0);
    print_call("sender 3", by_seven, downwards, 3, 0, 3, 3, 3);
    print_call("sender 4", by_seven, downwards, 4, 0, 3, 3, 3);
    print_call("receiver 3", by_seven, downwards, 2, 3, 3, 3, 3);
    print_call("one element less", by_seven, one_less, 2, 0, 0, 0, 0);
    print_call("left at fault", beyond, downwards, -1, 0, 3, 3, 3);
    print_call("right at fault", by_seven, no_processors, 2, 0, 3, 3, 3);
    print_call("both at fault", beyond, no_processors, 2, 0, 3, 3, 3);
    print_call("left bound at fault", no_bounds, no_processors, 2, 0, 3, 3, 3);
    print_call("right bound at fault", by_seven, no_bounds, -1, 0, 3, 3, 3);
    printf("counts %d\nroom %d\n", HPF_REFUSED_COUNTS, HPF_REFUSED_ROOM);
    return 0;
}

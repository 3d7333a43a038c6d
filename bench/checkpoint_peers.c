/* The loops do not divide: what they need of the mapping is found before them, which is part of their time. */
#include "checkpoint_peers.h"

#include <string.h>

#include "lattice.h"

/* or the compiler makes a memcpy of the inner loop too */
#pragma GCC optimize("no-tree-loop-distribute-patterns")

/* a loop of its own for each constant that it is called with */
#define LOOP static inline __attribute__((always_inline))

#define SELDOM(condition) __builtin_expect_with_probability(condition, 0, 0.999)

enum { MOST_PROCESSORS = 1024 };

typedef struct {
    int64_t size, processors, block, stride;
    int64_t least, rest;     /* k = least*a + rest: a block has least elements, or one more */
    int64_t blocks, columns; /* a = blocks*k + columns, the blocks modulo p */
} shape;

/* the owner of an element and its column */
typedef struct {
    int64_t owner, column;
} owned_column;

static shape shape_of(const input *in)
{
    int64_t k = in->block, a = in->stride;
    return (shape){in->size, in->processors, k, a, k / a, k % a, a / k % in->processors, a % k};
}

/* Goes on to the next element. The compiler makes a choice of the last branch, which the next element waits for. */
LOOP void to_next_element(owned_column *at, shape s)
{
    at->column += s.columns;
    at->owner += s.blocks;
    if (at->column >= s.block) {
        at->column -= s.block;
        at->owner++;
    }
    if (at->owner >= s.processors)
        at->owner -= s.processors;
}

/* The same with two branches off the way: faster where it can be foretold when they are taken. */
LOOP void jump_to_next_element(owned_column *at, shape s)
{
    at->column += s.columns;
    at->owner += s.blocks;
    if (SELDOM(at->column >= s.block)) {
        at->column -= s.block;
        at->owner++;
    }
    if (SELDOM(at->owner >= s.processors))
        at->owner -= s.processors;
}

/* Goes on from the first element of a block to that of the next, and says how many the block has. */
LOOP int64_t to_next_block(owned_column *at, shape s)
{
    int64_t more = at->column < s.rest;
    at->column += more * s.stride - s.rest;
    if (++at->owner == s.processors)
        at->owner = 0;
    return s.least + more;
}

/* Adds to each processor's counter so many times what it has of the first elements. */
static void count_elements(shape s, int64_t elements, int64_t times, uint32_t row[])
{
    owned_column at = {0, 0};
    if (s.stride > s.block) {
        for (int64_t i = 0; i < elements; i++) {
            row[at.owner] += (uint32_t)times;
            to_next_element(&at, s);
        }
        return;
    }
    for (int64_t i = 0; i < elements;) {
        int64_t owner = at.owner, length = to_next_block(&at, s);
        row[owner] += (uint32_t)(times * (length < elements - i ? length : elements - i));
        i += length;
    }
}

/* Where each processor's words begin. Owners repeat after a period: one is counted for all, and what is left over. */
static void find_starts(shape s, uint32_t row[])
{
    int64_t course = s.processors * s.block, period = course / gcd(s.stride, course);
    uint32_t start = 0;
    memset(row, 0, sizeof row[0] * (size_t)s.processors);
    if (s.size >= period)
        count_elements(s, period, s.size / period, row);
    count_elements(s, s.size % period, 1, row);
    for (int64_t owner = 0; owner < s.processors; owner++) {
        uint32_t count = row[owner];
        row[owner] = start;
        start += count;
    }
}

LOOP void by_words(const input *in, const int64_t *restrict from, int64_t *restrict to, int saving)
{
    uint32_t row[MOST_PROCESSORS];
    shape s = shape_of(in);
    owned_column at = {0, 0};
    find_starts(s, row);
    for (int64_t i = 0; i < s.size; i++) {
        int64_t place = row[at.owner]++;
        if (saving)
            to[i] = from[place];
        else
            to[place] = from[i];
        to_next_element(&at, s);
    }
}

LOOP void by_pointers(const input *in, const int64_t *restrict from, int64_t *restrict to, int saving)
{
    uint32_t row[MOST_PROCESSORS];
    const int64_t *restrict source[MOST_PROCESSORS];
    int64_t *restrict target[MOST_PROCESSORS];
    shape s = shape_of(in);
    owned_column at = {0, 0};
    find_starts(s, row);
    for (int64_t owner = 0; owner < s.processors; owner++) {
        source[owner] = from + row[owner];
        target[owner] = to + row[owner];
    }
    for (int64_t i = 0; i < s.size; i++) {
        if (saving)
            to[i] = *source[at.owner]++;
        else
            *target[at.owner]++ = from[i];
        jump_to_next_element(&at, s);
    }
}

LOOP void by_runs(const input *in, const int64_t *restrict from, int64_t *restrict to, int saving, int by_memcpy)
{
    uint32_t row[MOST_PROCESSORS];
    shape s = shape_of(in);
    owned_column at = {0, 0};
    find_starts(s, row);
    for (int64_t i = 0; i < s.size;) {
        int64_t owner = at.owner, place = row[owner], length = to_next_block(&at, s);
        if (length > s.size - i)
            length = s.size - i;
        const int64_t *restrict source = from + (saving ? place : i);
        int64_t *restrict target = to + (saving ? i : place);
        row[owner] += (uint32_t)length;
        i += length;
        if (by_memcpy)
            memcpy(target, source, sizeof target[0] * (size_t)length);
        else
            for (int64_t j = 0; j < length; j++)
                target[j] = source[j];
    }
}

#define PEER(name, copy) \
    void name(const input *in, const int64_t *restrict from, int64_t *restrict to) { copy; }

PEER(save_words, by_words(in, from, to, 1))
PEER(restore_words, by_words(in, from, to, 0))
PEER(save_pointers, by_pointers(in, from, to, 1))
PEER(restore_pointers, by_pointers(in, from, to, 0))
PEER(save_runs, by_runs(in, from, to, 1, 0))
PEER(restore_runs, by_runs(in, from, to, 0, 0))
PEER(save_memcpy, by_runs(in, from, to, 1, 1))
PEER(restore_memcpy, by_runs(in, from, to, 0, 1))

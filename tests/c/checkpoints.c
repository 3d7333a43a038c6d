/*
 * Prints arrays saved in index order and restored, and refusals, as a C program sees them, by both forms of each
 * call.
 */
#include <inttypes.h>
#include <stddef.h>
#include <stdint.h>
#include <stdio.h>
#include <string.h>

#include "hpfaddr.h"
#include "same.h"

enum { MOST = 24, ROOM = MOST + 2, UNTOUCHED = -1000 };

/* The README's picture, and as many elements on two processors in blocks of 3. */
static const hpf_mapping picture = {24, 3, 4, 3, 1, 8, 0, 0};
static const hpf_mapping two_processors = {8, 2, 3, 1, 0, 8, 0, 0};
/* A(-3:20) aligned with T(2*j+1) of a template from -5 on. */
static const hpf_mapping from_minus_three = {47, 3, 4, 2, 1, 24, -3, -5};
/* Every second processor has no elements. */
static const hpf_mapping whole_blocks = {144, 4, 4, 8, -8, 18, 1, 0};
static const hpf_mapping in_turn = {9, 2, 2, 2, 2, 4, 0, 1};
static const hpf_mapping one_element = {1, 1, 1, 1, 0, 1, 0, 0};
static const hpf_mapping no_elements = {1, 1024, 65536, 5, -7, 0, 0, 0};

/* The two lists of a call, and those of its other form. */
static int64_t storage[ROOM], saved[ROOM], other_storage[ROOM], other_saved[ROOM];

static int64_t *list_of(int64_t list[ROOM], size_t words)
{
    return words == 0 ? NULL : list;
}

static void copy_lists(void)
{
    memcpy(other_storage, storage, sizeof storage);
    memcpy(other_saved, saved, sizeof saved);
}

static void expect_same_copies(hpf_copied plain, hpf_copied typed)
{
    expect_same(&plain, &typed, sizeof plain);
    expect_same(storage, other_storage, sizeof storage);
    expect_same(saved, other_saved, sizeof saved);
}

static hpf_copied checkpoint(hpf_mapping m, size_t storage_words, size_t saved_words)
{
    copy_lists();
    hpf_copied typed = hpf_checkpoint_of(m, list_of(other_storage, storage_words), storage_words,
                                         list_of(other_saved, saved_words), saved_words);
    hpf_copied plain = hpf_checkpoint(m.cells, m.processors, m.block, m.stride, m.offset, m.size, m.array_lower,
                                      m.template_lower, list_of(storage, storage_words), storage_words,
                                      list_of(saved, saved_words), saved_words);
    expect_same_copies(plain, typed);
    return plain;
}

static hpf_copied restore(hpf_mapping m, size_t saved_words, size_t storage_words)
{
    copy_lists();
    hpf_copied typed = hpf_restore_of(m, list_of(other_saved, saved_words), saved_words,
                                      list_of(other_storage, storage_words), storage_words);
    hpf_copied plain = hpf_restore(m.cells, m.processors, m.block, m.stride, m.offset, m.size, m.array_lower,
                                   m.template_lower, list_of(saved, saved_words), saved_words,
                                   list_of(storage, storage_words), storage_words);
    expect_same_copies(plain, typed);
    return plain;
}

/* One list counts up from a number, and the other is untouched. */
static void set_lists(int64_t counting[ROOM], int64_t first, int64_t other[ROOM])
{
    for (int32_t i = 0; i < ROOM; i++) {
        counting[i] = first + i;
        other[i] = UNTOUCHED;
    }
}

/* How many words of both lists are not what they were set to. */
static int32_t changes(const int64_t counting[ROOM], int64_t first, const int64_t other[ROOM])
{
    int32_t changed = 0;
    for (int32_t i = 0; i < ROOM; i++)
        changed += (counting[i] != first + i) + (other[i] != UNTOUCHED);
    return changed;
}

/* The words of storage, processor by processor. */
static void print_storage(hpf_mapping m)
{
    int32_t place = 0;
    for (int64_t processor = 0; processor < m.processors; processor++) {
        int32_t end = place + hpf_local_count_of(m, processor).elements;
        printf(" on %" PRId64 ":", processor);
        for (; place < end; place++)
            printf(" %" PRId64, storage[place]);
    }
    printf("\n");
}

/* Each index restored to where its element is, and each place of storage saved. */
static void print_array(const char *name, hpf_mapping m)
{
    set_lists(saved, m.array_lower, storage);
    hpf_copied restored = restore(m, ROOM, ROOM);
    printf("%s restored, %" PRId32 " %" PRId32 ",", name, restored.refusal, restored.needed);
    print_storage(m);
    set_lists(storage, 0, saved);
    hpf_copied copied = checkpoint(m, ROOM, ROOM);
    printf("%s saved, %" PRId32 " %" PRId32 ":", name, copied.refusal, copied.needed);
    for (int64_t i = 0; i < m.size; i++)
        printf(" %" PRId64, saved[i]);
    printf("\n");
}

/* A checkpoint and a restore with lists of so many words, and how many words each changed in the two lists. */
static void print_calls(const char *name, hpf_mapping m, size_t storage_words, size_t saved_words)
{
    set_lists(storage, 1, saved);
    hpf_copied copied = checkpoint(m, storage_words, saved_words);
    printf("%s: %" PRId32 " %" PRId32 ", %" PRId32 " written", name, copied.refusal, copied.needed,
           changes(storage, 1, saved));
    set_lists(saved, 1, storage);
    copied = restore(m, saved_words, storage_words);
    printf("; %" PRId32 " %" PRId32 ", %" PRId32 " written\n", copied.refusal, copied.needed,
           changes(saved, 1, storage));
}

/* Doubles, saved under one mapping and restored under another. */
static void print_doubles(hpf_mapping from, hpf_mapping to)
{
    double old[MOST], in_order[MOST], moved[MOST];
    for (int32_t i = 0; i < from.size; i++)
        old[i] = 1.25 * (i + 1);
    hpf_copied copied = hpf_checkpoint_of(from, (int64_t *)old, MOST, (int64_t *)in_order, MOST);
    hpf_copied restored = hpf_restore_of(to, (int64_t *)in_order, MOST, (int64_t *)moved, MOST);
    printf("doubles, %" PRId32 " %" PRId32 ":", copied.refusal, restored.refusal);
    for (int32_t i = 0; i < to.size; i++)
        printf(" %.2f", moved[i]);
    printf("\n");
}

/* Words of any bits: a signalling NaN, minus 0, the least number, and all bits set. */
static void print_bits(void)
{
    const uint64_t bits[4] = {0x7FF0000000000001, 0x8000000000000000, 1, 0xFFFFFFFFFFFFFFFF};
    set_lists(storage, 0, saved);
    memcpy(storage, bits, sizeof bits);
    hpf_copied copied = checkpoint(in_turn, 4, 4);
    printf("bits, %" PRId32 ":", copied.refusal);
    for (int32_t i = 0; i < 4; i++)
        printf(" %016" PRIX64, (uint64_t)saved[i]);
    printf("\n");
}

static void print_refusals(void)
{
    const int64_t least = INT64_MIN, past = 2147483648;
    const hpf_mapping no_mapping = {least, least, least, least, least, least, least, least};
    print_calls("no cells", (hpf_mapping){0, 3, 4, 3, 1, 8, 0, 0}, 8, 8);
    print_calls("1025 processors", (hpf_mapping){24, 1025, 4, 3, 1, 8, 0, 0}, 8, 8);
    print_calls("block of 65537", (hpf_mapping){24, 3, 65537, 3, 1, 8, 0, 0}, 8, 8);
    print_calls("stride 0", (hpf_mapping){24, 3, 4, 0, 1, 8, 0, 0}, 8, 8);
    print_calls("offset 2147483648", (hpf_mapping){24, 3, 4, 3, past, 8, past, 0}, 8, 8);
    print_calls("-1 elements", (hpf_mapping){24, 3, 4, 3, 1, -1, past, 0}, 8, 8);
    print_calls("lower bound 2147483648", (hpf_mapping){24, 3, 4, 3, 1, 8, past, 0}, 8, 8);
    print_calls("last declared cell 2147483648", (hpf_mapping){24, 3, 4, 3, 1, 8, 0, past - 23}, 8, 8);
    print_calls("offset -1", (hpf_mapping){24, 3, 4, 3, -1, 8, 0, 0}, 8, 8);
    print_calls("9 elements", (hpf_mapping){24, 3, 4, 3, 1, 9, 0, 0}, 0, 0);
    print_calls("all at fault", no_mapping, 0, 0);
    print_calls("few words of storage", picture, 7, 8);
    print_calls("few words saved", picture, 8, 7);
    print_calls("no lists", picture, 0, 0);
    print_calls("no storage", picture, 0, ROOM);
    print_calls("nothing saved", picture, ROOM, 0);
    print_calls("2147483647 elements", (hpf_mapping){2147483647, 3, 4, 1, 0, 2147483647, 0, 0}, ROOM, ROOM);
}

int main(void)
{
    print_array("picture", picture);
    print_array("two processors", two_processors);
    print_array("from -3", from_minus_three);
    print_array("whole blocks", whole_blocks);
    print_array("in turn", in_turn);
    print_calls("exact lists", picture, 8, 8);
    print_calls("longer lists", picture, ROOM, 9);
    print_calls("one element", one_element, 1, 1);
    print_calls("no elements, no lists", no_elements, 0, 0);
    print_calls("no elements, longer lists", no_elements, 2, ROOM);
    print_doubles(picture, two_processors);
    print_bits();
    print_refusals();
    printf("room %d\n", HPF_REFUSED_ROOM);
    return 0;
}

/*
 * hpfaddr.h: owners, local addresses, sections, assignments and checkpoints of
 * one-dimensional arrays, block-cyclic or dealt by a list of sizes; and of arrays of rank
 * 2 and 3 owners, local addresses and sections, as hpfaddr_grid.h says.
 *
 * A template is a row of cells, dealt to processors in blocks, as CYCLIC(k) of
 * HPF 2.0 says. An array is aligned to the template. A mapping is eight numbers:
 *
 *   cells           T   cells of the template         1 to 2147483647
 *   processors      p   processors                    1 to 1024
 *   block           k   cells in a block              1 to 65536
 *   stride          a   cells from index to index     1 to 4096
 *   offset          b   declared cell of index 0      -2147483647 to 2147483647
 *   size            n   elements of the array         0 to 2147483647
 *   array_lower     La  first declared index          -2147483647 to 2147483647
 *   template_lower  Lt  first declared cell           -2147483647 to 2147483647
 *
 * Indices are the declared ones, La to La + n - 1, wherever they go in or come
 * out. Declared index j sits on declared cell a*j + b, which is cell a*j + b - Lt:
 * cells, processors, addresses and positions count from 0. The last declared index
 * and the last declared cell, Lt + T - 1, are at most 2147483647; the first
 * element's cell is 0 or more, and the last one's below T. An array of no elements
 * has no last index and no such cells.
 *
 * The owner of cell c is processor (c / k) mod p; its course is c / pk and its
 * column is c mod k. The local address of an element is the number of elements
 * with a lower index and the same owner: each processor's addresses run from 0 to
 * one below its number of elements, without a gap.
 *
 * A template may be dealt by a list of sizes instead, as GEN_BLOCK of HPF 2.0's approved
 * extensions says. The mapping then has in the place of the block:
 *
 *   sizes, sizes_bytes  one size for each processor, 0 or more, T or more in all
 *
 * The list is sizes_bytes bytes at any address, 4 to a size, the lowest first, two's
 * complement; on a machine that stores integers so, it may be an array of int32_t. It is
 * read only, and no list that the call writes may overlap it; it may be NULL only if
 * sizes_bytes is 0. The first cells are processor 0's, as many as the first size says, the
 * next ones processor 1's, and so on: a processor's cells are one run, and cells past T
 * belong to nobody. Everything else here is said of both dealings. The functions
 * hpf_gen_block_... take such a mapping, and so does each side of hpf_transfers_between.
 *
 * A section l:h:s of the array is three more numbers, each within +-2147483647:
 *
 *   lower       l  the index at position 0
 *   upper       h  no element lies past it; it need not be one itself
 *   step        s  indices from position to position; negative goes down; not 0
 *
 * It has max(0, (h - l + s) / s) elements, the quotient truncated as in C: its
 * count. Position t holds element l + t*s. The first and the last of them, if there
 * are any, must be elements of the array.
 *
 * A processor's list is made of the section's elements that it owns, in rising
 * position. A place is the position of one of them, or the count at the end.
 * To fill the whole list, go on from the first place until the count:
 *
 *   int64_t count = hpf_section_steps_of(mapping, section).count;
 *   int64_t place = hpf_first_place_of(mapping, section, processor).place;
 *   while (place != count) {
 *       hpf_filled filled = hpf_fill_of(mapping, section, processor, place,
 *                                       HPF_LARGEST_QUOTA, list, list_bytes);
 *       use the filled.entries addresses that now begin the list;
 *       place = filled.place;
 *   }
 *
 * Look at each refusal first: the place 0 of a refused call is no place. The
 * list needs room for one address or more, or the loop does not end.
 *
 * In an assignment left(section) = right(section), of two sections with the same
 * count, the element at each position goes from a sender, its owner on the
 * right, to a receiver, its owner on the left. The positions of one sender and one
 * receiver, rising, are the entries of their pair; each position is in one pair, once.
 *
 * The storage of an array is its processors' words laid end to end: those of processor
 * 0 first, each processor's in the order of their local addresses, size words in all.
 * hpf_checkpoint writes them in index order, and hpf_restore from index order into the
 * storage of any mapping of as many elements: an array that is saved under one mapping
 * and restored under another has each element's word where the other mapping has it.
 *
 * What is guaranteed:
 * - Every call returns, whatever numbers it is given.
 * - Each field of each answer and each byte of a lent list afterwards, refusals
 *   too, is proved to equal its definition.
 * - Ownership and going back undo each other, and so do checkpoint and restore.
 * - Fills one after another, from the first place on, give each element of the
 *   processor's list once and in order, whatever their quotas and lists, also
 *   with refused fills between them.
 * - The calls keep no state, and touch no memory of the caller's but the lists that
 *   they are lent: any number of threads may call them, each with lists of its own.
 */
#ifndef HPFADDR_H
#define HPFADDR_H

#include <stddef.h>
#include <stdint.h>

#include "hpfaddr_version.h"

#ifdef __cplusplus
extern "C" {
#endif

/*
 * The field refusal of an answer. A call asks these questions in this order, those
 * that concern its arguments, and stops at the first one answered no; 5 has two
 * halves, with 15 between them. A list of sizes is asked 16, a block 3. hpf_transfers and
 * hpf_transfers_between ask 1 to 7, with 15 and 16, of the left section, then of the
 * right one, 8 of the sender, 8 of the receiver, 12 and 13; checkpoints and restores ask
 * 1 to 5, with 15 and 16, and 13. The refusal is the number of that question, every other
 * field is 0, but for what 13 adds, and a lent list is left as it was.
 */
enum {
    HPF_ACCEPTED = 0,
    HPF_REFUSED_CELLS = 1,            /* is cells in its range? */
    HPF_REFUSED_PROCESSORS = 2,       /* is processors in its range? */
    HPF_REFUSED_BLOCK = 3,            /* is block in its range? */
    HPF_REFUSED_GEN_BLOCK = 16,       /* are there 4*processors bytes of sizes, none below 0, cells or more in all? */
    HPF_REFUSED_ALIGNMENT = 4,        /* are stride and offset in their ranges? */
    HPF_REFUSED_SIZE = 5,             /* is size in its range? after 15: are the elements' cells from 0 to cells - 1? */
    HPF_REFUSED_BOUNDS = 15,          /* are lower bounds, last index and last declared cell within +-2147483647? */
    HPF_REFUSED_TRIPLET = 6,          /* are lower, upper and step in their ranges, and is step not 0? */
    HPF_REFUSED_SECTION = 7,          /* are the section's first and last elements, if any, elements of the array? */
    HPF_REFUSED_PROCESSOR_NUMBER = 8, /* is the processor from 0 to processors - 1? */
    HPF_REFUSED_ELEMENT = 9,          /* is there an element of this index, or at this address? */
    HPF_REFUSED_PLACE = 10,           /* is the place the count, or a position whose element the processor owns? */
    HPF_REFUSED_QUOTA = 11,           /* is the quota in its range? */
    HPF_REFUSED_COUNTS = 12,          /* have both sections the same count? */
    HPF_REFUSED_ROOM = 13,            /* has each list room: for the pair's entries, for the array's words? */
    HPF_REFUSED_GRID = 17             /* is the rank 1 to 3? after 7: are there few enough processors and elements? */
};

/* The quotas of a fill. A fill goes on only while it has the least of them left. */
enum { HPF_LEAST_QUOTA = 3, HPF_LARGEST_QUOTA = 1000000 };

/* Where an element is: its owner and its local address there. */
typedef struct hpf_owned {
    int32_t refusal;   /* 0, or 1 to 5, or 9, or 15, or 16 */
    int32_t processor; /* 0 to processors - 1 */
    int32_t address;   /* 0 or more, below the processor's number of elements */
} hpf_owned;

/* Which element is at an address. */
typedef struct hpf_found {
    int32_t refusal; /* 0, or 1 to 5, or 8, or 9, or 15, or 16 */
    int32_t index;   /* array_lower to array_lower + size - 1 */
} hpf_found;

/* How many elements a processor holds: the storage to allocate there. */
typedef struct hpf_counted {
    int32_t refusal;  /* 0, or 1 to 5, or 8, or 15, or 16 */
    int32_t elements; /* 0 to size */
} hpf_counted;

/*
 * How many elements a section has, and the steps from one of a processor's
 * elements to the next. With S = a*|s| and, if there is a block, pk cells in a course:
 * - Two steps, if gcd(S, pk) is below k. The processor step is the smallest
 *   positive multiple of S that moves the column up by 1 to k - 1 and stays with
 *   the processor, the return step the smallest that moves it down so. The next
 *   element is a processor step away if the column has room for it, else a
 *   return step if that has, else the sum of both: 1, 2 or 3 tries. In a section
 *   that goes down both lead down, and move the column the other way.
 * - One step, if gcd(S, pk) is k or more. It keeps the column, and costs 1 try.
 * - One step, if there is a list of sizes: S cells, 0 courses and column move S. It costs
 *   1 try, and after the processor's last element the place is the count.
 * - No step, if the section has one element, which costs 1 try, or none.
 * The fields of steps that there are not are 0.
 */
typedef struct hpf_steps {
    int64_t refusal;        /* 0, or 1 to 7, or 15, or 16 */
    int64_t count;          /* elements of the section, 0 to size */
    int64_t steps;          /* 0, 1 or 2 */
    int64_t cells;          /* processor step, or the one step: a multiple of S */
    int64_t courses;        /* 0 or more */
    int64_t column;         /* 1 to k - 1; 0 for the one step, S for that by sizes */
    int64_t return_cells;   /* return step: a multiple of S */
    int64_t return_courses; /* 1 or more; cells are courses*pk + column, here too */
    int64_t return_column;  /* -1 to -(k - 1) */
} hpf_steps;

/* Where a processor's list begins. */
typedef struct hpf_placed {
    int32_t refusal; /* 0, or 1 to 8, or 15, or 16 */
    int32_t place;   /* the lowest position whose element it owns, or the count if none */
} hpf_placed;

/* What a fill did. */
typedef struct hpf_filled {
    int32_t refusal; /* 0, or 1 to 8, or 10, or 11, or 15, or 16 */
    int32_t entries; /* addresses written, from the list's start on */
    int32_t tries;   /* paid for them, 0 to the quota */
    int32_t place;   /* where the next fill goes on, or the count at the end */
} hpf_filled;

/* What a transfer did. */
typedef struct hpf_transferred {
    int32_t refusal; /* 0, or 1 to 8, or 12, or 13, or 15, or 16 */
    int32_t entries; /* of the pair, written from each list's start on */
    int32_t needed;  /* with refusal 13, how many entries the pair has; else 0 */
} hpf_transferred;

/* What a checkpoint or a restore did. */
typedef struct hpf_copied {
    int32_t refusal; /* 0, or 1 to 5, or 13, or 15, or 16 */
    int32_t needed;  /* with refusal 13, how many words each list needs: size; else 0 */
} hpf_copied;

/* The owner and the local address of the element with this declared index. */
hpf_owned hpf_ownership(int64_t cells, int64_t processors, int64_t block, int64_t stride, int64_t offset, int64_t size,
                        int64_t array_lower, int64_t template_lower, int64_t index);

/* The element that a processor, 0 to processors - 1, holds at a local address. */
hpf_found hpf_going_back(int64_t cells, int64_t processors, int64_t block, int64_t stride, int64_t offset, int64_t size,
                         int64_t array_lower, int64_t template_lower, int64_t processor, int64_t address);

/* The number of elements that a processor, 0 to processors - 1, holds. */
hpf_counted hpf_local_count(int64_t cells, int64_t processors, int64_t block, int64_t stride, int64_t offset,
                            int64_t size, int64_t array_lower, int64_t template_lower, int64_t processor);

/* The count and the steps of a section. */
hpf_steps hpf_section_steps(int64_t cells, int64_t processors, int64_t block, int64_t stride, int64_t offset,
                            int64_t size, int64_t array_lower, int64_t template_lower,
                            int64_t lower, int64_t upper, int64_t step);

/* The place at which the list of a processor, 0 to processors - 1, begins. */
hpf_placed hpf_first_place(int64_t cells, int64_t processors, int64_t block, int64_t stride, int64_t offset,
                           int64_t size, int64_t array_lower, int64_t template_lower,
                           int64_t lower, int64_t upper, int64_t step, int64_t processor);

/*
 * Writes the addresses of a processor's list, from a place on, into the list
 * that it is lent, and pays the tries of going on from each, also from the last.
 * It goes on while the place is not the count, the list has an unused entry, and
 * 3 tries or more are left of the quota, 3 to 1000000.
 *
 * The list is list_bytes bytes at any address, 4 to an entry, the lowest byte
 * first; on a machine that stores integers so, it may be an array of int32_t. Bytes
 * after the entries written stay, and so do up to 3 at the end. No other thread may
 * use the list meanwhile. It may be NULL only if list_bytes is 0; then, and if the
 * place is the count, nothing is written and the place stays.
 */
hpf_filled hpf_fill(int64_t cells, int64_t processors, int64_t block, int64_t stride, int64_t offset, int64_t size,
                    int64_t array_lower, int64_t template_lower, int64_t lower, int64_t upper, int64_t step,
                    int64_t processor, int64_t place, int64_t quota, uint8_t *list, size_t list_bytes);

/*
 * Writes the entries of a sender, 0 to right_processors - 1, and a receiver, 0 to
 * left_processors - 1: all section positions whose element the sender owns on the
 * right and the receiver owns on the left, each once, in rising order, whichever way
 * the sections go. Entry i is positions[i], with the element's address on the sender
 * in sent[i] and on the receiver in received[i]. The order is fixed from this release
 * on: what is packed with one release is unpacked with another.
 *
 * Each list is an array of int32_t, aligned as such, with as many elements as the
 * number beside it says; no two of them may overlap. Elements after the entries
 * written stay. No other thread may use the lists meanwhile. A list may be NULL
 * only if its number is 0. Lend no lists to learn how many entries there are: the
 * answer is refusal 0 if there are none, else 13 and the number needed.
 */
hpf_transferred hpf_transfers(int64_t left_cells, int64_t left_processors, int64_t left_block,
                              int64_t left_stride, int64_t left_offset, int64_t left_size, int64_t left_array_lower,
                              int64_t left_template_lower, int64_t left_lower, int64_t left_upper, int64_t left_step,
                              int64_t right_cells, int64_t right_processors, int64_t right_block,
                              int64_t right_stride, int64_t right_offset, int64_t right_size,
                              int64_t right_array_lower, int64_t right_template_lower, int64_t right_lower,
                              int64_t right_upper, int64_t right_step, int64_t sender, int64_t receiver,
                              int32_t *positions, size_t positions_entries,
                              int32_t *sent, size_t sent_entries, int32_t *received, size_t received_entries);

/*
 * Writes the words of an array in index order: saved[i] is the word of element
 * array_lower + i, for each i below size. In storage it lies after the words of all
 * lower processors, at its local address.
 *
 * Each list is an array of 64-bit words, aligned as such, with as many as the number
 * beside it says; words may be any 8 bytes, a double too. The two lists may not overlap.
 * Words from size on stay, in both. No other thread may write to either list meanwhile,
 * or use the one that is written. A list may be NULL only if its number is 0. With lists
 * that are too short the answer is 13 and the words needed.
 */
hpf_copied hpf_checkpoint(int64_t cells, int64_t processors, int64_t block, int64_t stride, int64_t offset,
                          int64_t size, int64_t array_lower, int64_t template_lower,
                          const int64_t *storage, size_t storage_words, int64_t *saved, size_t saved_words);

/* Puts size words that stand in index order where the mapping has their elements: the other way, on such lists. */
hpf_copied hpf_restore(int64_t cells, int64_t processors, int64_t block, int64_t stride, int64_t offset, int64_t size,
                       int64_t array_lower, int64_t template_lower,
                       const int64_t *saved, size_t saved_words, int64_t *storage, size_t storage_words);

#include "hpfaddr_gen_block.h"
#include "hpfaddr_typed.h"
#include "hpfaddr_grid.h"

#ifdef __cplusplus
}
#endif

#endif

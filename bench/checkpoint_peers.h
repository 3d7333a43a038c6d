/*
 * Checkpoint and restore as plain loops in C: a row says where each processor's words go on.
 * They take the offset and the bounds 0, and ask no questions.
 */
#ifndef BENCH_CHECKPOINT_PEERS_H
#define BENCH_CHECKPOINT_PEERS_H

#include <stdint.h>

#include "library.h"

typedef void copy_words(const input *in, const int64_t *restrict from, int64_t *restrict to);

/* word by word, with a row of counters or of pointers */
copy_words save_words, restore_words;
copy_words save_pointers, restore_pointers;

/* block by block, by an inner loop or by memcpy; the stride is at most the block */
copy_words save_runs, restore_runs;
copy_words save_memcpy, restore_memcpy;

#endif

/*
 * Templates that are dealt by a list of sizes, as plain loops in C. They take the offset and the bounds 0, ask no
 * questions, and must be told how many addresses to list, and from where by which step.
 */
#ifndef BENCH_GEN_BLOCK_PEERS_H
#define BENCH_GEN_BLOCK_PEERS_H

#include <stddef.h>
#include <stdint.h>

#include "hpfaddr.h"

/* one loop, compiled with one address to a turn, and with as many as a vector has */
void list_by_step(uint32_t address, uint32_t step, uint32_t *list, size_t entries);
void list_by_vectors(uint32_t address, uint32_t step, uint32_t *list, size_t entries);

/* the sizes are added up as far as the cell, or the processor */
hpf_owned owner_by_sums(const hpf_gen_block_mapping *m, int64_t index);
int64_t first_place_by_sums(const hpf_gen_block_mapping *m, const hpf_triplet *s, int64_t processor);

#endif

/*
 * hpfaddr_gen_block.h: the calls of hpfaddr.h, which includes it, on templates that are
 * dealt by a list of sizes.
 */
#ifndef HPFADDR_GEN_BLOCK_H
#define HPFADDR_GEN_BLOCK_H

/* They answer as their namesakes do. Each looks the whole list through. */
hpf_owned hpf_gen_block_ownership(int64_t cells, int64_t processors, const uint8_t *sizes, size_t sizes_bytes,
                                  int64_t stride, int64_t offset, int64_t size, int64_t array_lower,
                                  int64_t template_lower, int64_t index);

hpf_found hpf_gen_block_going_back(int64_t cells, int64_t processors, const uint8_t *sizes, size_t sizes_bytes,
                                   int64_t stride, int64_t offset, int64_t size, int64_t array_lower,
                                   int64_t template_lower, int64_t processor, int64_t address);

hpf_counted hpf_gen_block_local_count(int64_t cells, int64_t processors, const uint8_t *sizes, size_t sizes_bytes,
                                      int64_t stride, int64_t offset, int64_t size, int64_t array_lower,
                                      int64_t template_lower, int64_t processor);

hpf_steps hpf_gen_block_section_steps(int64_t cells, int64_t processors, const uint8_t *sizes, size_t sizes_bytes,
                                      int64_t stride, int64_t offset, int64_t size, int64_t array_lower,
                                      int64_t template_lower, int64_t lower, int64_t upper, int64_t step);

hpf_placed hpf_gen_block_first_place(int64_t cells, int64_t processors, const uint8_t *sizes, size_t sizes_bytes,
                                     int64_t stride, int64_t offset, int64_t size, int64_t array_lower,
                                     int64_t template_lower, int64_t lower, int64_t upper, int64_t step,
                                     int64_t processor);

hpf_filled hpf_gen_block_fill(int64_t cells, int64_t processors, const uint8_t *sizes, size_t sizes_bytes,
                              int64_t stride, int64_t offset, int64_t size, int64_t array_lower,
                              int64_t template_lower, int64_t lower, int64_t upper, int64_t step,
                              int64_t processor, int64_t place, int64_t quota, uint8_t *list, size_t list_bytes);

hpf_copied hpf_gen_block_checkpoint(int64_t cells, int64_t processors, const uint8_t *sizes, size_t sizes_bytes,
                                    int64_t stride, int64_t offset, int64_t size, int64_t array_lower,
                                    int64_t template_lower, const int64_t *storage, size_t storage_words,
                                    int64_t *saved, size_t saved_words);

hpf_copied hpf_gen_block_restore(int64_t cells, int64_t processors, const uint8_t *sizes, size_t sizes_bytes,
                                 int64_t stride, int64_t offset, int64_t size, int64_t array_lower,
                                 int64_t template_lower, const int64_t *saved, size_t saved_words,
                                 int64_t *storage, size_t storage_words);

/* The dealing of a side: 0 is cyclic, and any other number is GEN_BLOCK. */
enum { HPF_CYCLIC = 0, HPF_GEN_BLOCK = 1 };

/*
 * The entries of a sender and a receiver, as hpf_transfers writes them, where each side
 * has a dealing of its own. Of a side's block and its sizes only the one that concerns
 * its dealing is looked at. The two lists of sizes may be one.
 */
hpf_transferred hpf_transfers_between(int64_t left_cells, int64_t left_processors, int64_t left_dealing,
                                      int64_t left_block, const uint8_t *left_sizes, size_t left_sizes_bytes,
                                      int64_t left_stride, int64_t left_offset, int64_t left_size,
                                      int64_t left_array_lower, int64_t left_template_lower,
                                      int64_t left_lower, int64_t left_upper, int64_t left_step,
                                      int64_t right_cells, int64_t right_processors, int64_t right_dealing,
                                      int64_t right_block, const uint8_t *right_sizes, size_t right_sizes_bytes,
                                      int64_t right_stride, int64_t right_offset, int64_t right_size,
                                      int64_t right_array_lower, int64_t right_template_lower,
                                      int64_t right_lower, int64_t right_upper, int64_t right_step,
                                      int64_t sender, int64_t receiver, int32_t *positions, size_t positions_entries,
                                      int32_t *sent, size_t sent_entries,
                                      int32_t *received, size_t received_entries);

#endif

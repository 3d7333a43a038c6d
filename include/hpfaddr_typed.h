/*
 * hpfaddr_typed.h: the calls of hpfaddr.h, which includes it, on mappings, sections and
 * sides instead of rows of numbers.
 */
#ifndef HPFADDR_TYPED_H
#define HPFADDR_TYPED_H

/*
 * The same calls on a mapping and a section as one thing each. Every number has its
 * name (a section's step is its stride), and bounds that are left out are 0, as in
 * (hpf_mapping){.cells = 96, .processors = 3, .block = 4, .stride = 1, .size = 96}.
 */
typedef struct hpf_mapping {
    int64_t cells, processors, block, stride, offset, size, array_lower, template_lower;
} hpf_mapping;

typedef struct hpf_triplet {
    int64_t lower, upper, stride;
} hpf_triplet;

/* Their numbers in the order of the calls' arguments. */
#define HPF_MAPPING_NUMBERS(m) \
    (m).cells, (m).processors, (m).block, (m).stride, (m).offset, (m).size, (m).array_lower, (m).template_lower
#define HPF_SECTION_NUMBERS(m, t) HPF_MAPPING_NUMBERS(m), (t).lower, (t).upper, (t).stride

static inline hpf_owned hpf_ownership_of(hpf_mapping m, int64_t index)
{
    return hpf_ownership(HPF_MAPPING_NUMBERS(m), index);
}

static inline hpf_found hpf_going_back_of(hpf_mapping m, int64_t processor, int64_t address)
{
    return hpf_going_back(HPF_MAPPING_NUMBERS(m), processor, address);
}

static inline hpf_counted hpf_local_count_of(hpf_mapping m, int64_t processor)
{
    return hpf_local_count(HPF_MAPPING_NUMBERS(m), processor);
}

static inline hpf_copied hpf_checkpoint_of(hpf_mapping m, const int64_t *storage, size_t storage_words, int64_t *saved,
                                           size_t saved_words)
{
    return hpf_checkpoint(HPF_MAPPING_NUMBERS(m), storage, storage_words, saved, saved_words);
}

static inline hpf_copied hpf_restore_of(hpf_mapping m, const int64_t *saved, size_t saved_words, int64_t *storage,
                                        size_t storage_words)
{
    return hpf_restore(HPF_MAPPING_NUMBERS(m), saved, saved_words, storage, storage_words);
}

static inline hpf_steps hpf_section_steps_of(hpf_mapping m, hpf_triplet t)
{
    return hpf_section_steps(HPF_SECTION_NUMBERS(m, t));
}

static inline hpf_placed hpf_first_place_of(hpf_mapping m, hpf_triplet t, int64_t processor)
{
    return hpf_first_place(HPF_SECTION_NUMBERS(m, t), processor);
}

static inline hpf_filled hpf_fill_of(hpf_mapping m, hpf_triplet t, int64_t processor, int64_t place, int64_t quota,
                                     uint8_t *list, size_t list_bytes)
{
    return hpf_fill(HPF_SECTION_NUMBERS(m, t), processor, place, quota, list, list_bytes);
}

static inline hpf_transferred hpf_transfers_of(hpf_mapping left, hpf_triplet left_section,
                                               hpf_mapping right, hpf_triplet right_section,
                                               int64_t sender, int64_t receiver,
                                               int32_t *positions, size_t positions_entries, int32_t *sent,
                                               size_t sent_entries, int32_t *received, size_t received_entries)
{
    return hpf_transfers(HPF_SECTION_NUMBERS(left, left_section), HPF_SECTION_NUMBERS(right, right_section), sender,
                         receiver, positions, positions_entries, sent, sent_entries, received, received_entries);
}

/*
 * The same on a mapping with a list of sizes, as in
 * (hpf_gen_block_mapping){.cells = 96, .processors = 3, .sizes = (const uint8_t *)sizes,
 *                         .sizes_bytes = sizeof sizes, .stride = 1, .size = 96}.
 */
typedef struct hpf_gen_block_mapping {
    int64_t cells, processors;
    const uint8_t *sizes;
    size_t sizes_bytes;
    int64_t stride, offset, size, array_lower, template_lower;
} hpf_gen_block_mapping;

#define HPF_GEN_BLOCK_NUMBERS(m)                                                                           \
    (m).cells, (m).processors, (m).sizes, (m).sizes_bytes, (m).stride, (m).offset, (m).size, (m).array_lower, \
        (m).template_lower
#define HPF_GEN_BLOCK_SECTION_NUMBERS(m, t) HPF_GEN_BLOCK_NUMBERS(m), (t).lower, (t).upper, (t).stride

static inline hpf_owned hpf_gen_block_ownership_of(hpf_gen_block_mapping m, int64_t index)
{
    return hpf_gen_block_ownership(HPF_GEN_BLOCK_NUMBERS(m), index);
}

static inline hpf_found hpf_gen_block_going_back_of(hpf_gen_block_mapping m, int64_t processor, int64_t address)
{
    return hpf_gen_block_going_back(HPF_GEN_BLOCK_NUMBERS(m), processor, address);
}

static inline hpf_counted hpf_gen_block_local_count_of(hpf_gen_block_mapping m, int64_t processor)
{
    return hpf_gen_block_local_count(HPF_GEN_BLOCK_NUMBERS(m), processor);
}

static inline hpf_copied hpf_gen_block_checkpoint_of(hpf_gen_block_mapping m, const int64_t *storage,
                                                     size_t storage_words, int64_t *saved, size_t saved_words)
{
    return hpf_gen_block_checkpoint(HPF_GEN_BLOCK_NUMBERS(m), storage, storage_words, saved, saved_words);
}

static inline hpf_copied hpf_gen_block_restore_of(hpf_gen_block_mapping m, const int64_t *saved, size_t saved_words,
                                                  int64_t *storage, size_t storage_words)
{
    return hpf_gen_block_restore(HPF_GEN_BLOCK_NUMBERS(m), saved, saved_words, storage, storage_words);
}

static inline hpf_steps hpf_gen_block_section_steps_of(hpf_gen_block_mapping m, hpf_triplet t)
{
    return hpf_gen_block_section_steps(HPF_GEN_BLOCK_SECTION_NUMBERS(m, t));
}

static inline hpf_placed hpf_gen_block_first_place_of(hpf_gen_block_mapping m, hpf_triplet t, int64_t processor)
{
    return hpf_gen_block_first_place(HPF_GEN_BLOCK_SECTION_NUMBERS(m, t), processor);
}

static inline hpf_filled hpf_gen_block_fill_of(hpf_gen_block_mapping m, hpf_triplet t, int64_t processor,
                                               int64_t place, int64_t quota, uint8_t *list, size_t list_bytes)
{
    return hpf_gen_block_fill(HPF_GEN_BLOCK_SECTION_NUMBERS(m, t), processor, place, quota, list, list_bytes);
}

/* A side of hpf_transfers_between_of: hpf_cyclic_side or hpf_gen_block_side makes it of a mapping and a section. */
typedef struct hpf_side {
    int64_t cells, processors, dealing, block;
    const uint8_t *sizes;
    size_t sizes_bytes;
    int64_t stride, offset, size, array_lower, template_lower, lower, upper, step;
} hpf_side;

static inline hpf_side hpf_cyclic_side(hpf_mapping m, hpf_triplet t)
{
    hpf_side side = {m.cells, m.processors, HPF_CYCLIC, m.block, NULL, 0, m.stride, m.offset, m.size,
                     m.array_lower, m.template_lower, t.lower, t.upper, t.stride};
    return side;
}

static inline hpf_side hpf_gen_block_side(hpf_gen_block_mapping m, hpf_triplet t)
{
    hpf_side side = {m.cells, m.processors, HPF_GEN_BLOCK, 0, m.sizes, m.sizes_bytes, m.stride, m.offset, m.size,
                     m.array_lower, m.template_lower, t.lower, t.upper, t.stride};
    return side;
}

#define HPF_SIDE_NUMBERS(s)                                                                                  \
    (s).cells, (s).processors, (s).dealing, (s).block, (s).sizes, (s).sizes_bytes, (s).stride, (s).offset, (s).size, \
        (s).array_lower, (s).template_lower, (s).lower, (s).upper, (s).step

static inline hpf_transferred hpf_transfers_between_of(hpf_side left, hpf_side right, int64_t sender, int64_t receiver,
                                                       int32_t *positions, size_t positions_entries, int32_t *sent,
                                                       size_t sent_entries, int32_t *received, size_t received_entries)
{
    return hpf_transfers_between(HPF_SIDE_NUMBERS(left), HPF_SIDE_NUMBERS(right), sender, receiver, positions,
                                 positions_entries, sent, sent_entries, received, received_entries);
}

#endif

/*
 * hpfaddr_grid.h: the calls of hpfaddr.h, which includes it, on arrays of rank 1, 2 or 3 whose
 * dimensions are each dealt to processors of their own.
 *
 * A grid is a rank and a mapping for each dimension, cyclic or by a list of sizes, with the
 * ranges of hpfaddr.h. Together its dimensions have at most 1024 processors, and at most
 * 2147483647 elements, each number being multiplied over the dimensions.
 *
 * An element has a declared index in each dimension. Its owner is the processor whose
 * coordinates own these indices. Processors are numbered first dimension fastest: where the
 * dimensions have p1, p2 and p3 of them, coordinates q1, q2 and q3 are those of grid processor
 * q1 + p1*(q2 + p2*q3).
 *
 * Storage is Fortran's, first dimension fastest: the local address of an element is the number
 * of elements of its owner that stand earlier in that order. Where the element has local
 * addresses a1, a2 and a3 in the dimensions, and the owner's coordinates hold c1, c2 and c3
 * elements there (hpf_local_count and hpf_gen_block_local_count say how many), the address is
 * a1 + c1*(a2 + c2*a3), and the owner holds c1*c2*c3 elements.
 *
 * A section is a triplet for each dimension. Where these have m1, m2 and m3 elements, its count
 * is m1*m2*m3, and position t1 + m1*(t2 + m2*t3) holds the element at their positions t1, t2 and
 * t3. The positions with one t2 and one t3 are a row. A processor's list is made of the section's
 * elements that it owns, in rising position. Going on inside a row costs the tries of going on
 * in the first dimension's section, and so does going on from a row's last element, to the
 * processor's first one in the next row that has any, or to the count.
 *
 * To fill the whole list of a processor, go on from the first place until the count, here on
 * a grid that has no lists of sizes:
 *
 *   int64_t count = hpf_cyclic_grid_section_steps(section).count;
 *   int64_t place = hpf_cyclic_grid_first_place(section, processor).place;
 *   while (place != count) {
 *       hpf_filled filled = hpf_cyclic_grid_fill(section, processor, place,
 *                                                HPF_LARGEST_QUOTA, list, list_bytes);
 *       use the filled.entries addresses that now begin the list;
 *       place = filled.place;
 *   }
 *
 * A fill may end anywhere in a row. A grid of rank 1 has in every field the answers of the calls
 * on its one mapping, and all that hpfaddr.h guarantees is guaranteed here.
 *
 * Questions: 17 first of all, is the rank 1, 2 or 3? Then each dimension is asked 1 to 5, with 15
 * and 16, and in calls on sections 6 and 7, all of them before the next dimension is asked any.
 * Then 17 again: are processors and elements, multiplied over the dimensions, within their
 * limits? Then 8 of the grid processor, and 9, 10 and 11. A dimension past the rank is not
 * looked at, nor is its list, triplet or index.
 */
#ifndef HPFADDR_GRID_H
#define HPFADDR_GRID_H

/*
 * A dimension. A dealing that is left out is HPF_CYCLIC. With HPF_GEN_BLOCK, or any other
 * number, the list of sizes is looked at instead of the block.
 */
typedef struct hpf_dimension {
    int64_t cells, processors, dealing, block, stride, offset, size, array_lower, template_lower;
} hpf_dimension;

/* As in (hpf_grid){.rank = 2, .dimensions = {rows, columns}}. */
typedef struct hpf_grid {
    int64_t rank; /* 1, 2 or 3 */
    hpf_dimension dimensions[3];
} hpf_grid;

/* As in (hpf_grid_section){.grid = grid, .triplets = {{2, 95, 1}, {95, 2, -1}}}. */
typedef struct hpf_grid_section {
    hpf_grid grid;
    hpf_triplet triplets[3];
} hpf_grid_section;

/* Which element is at an address. */
typedef struct hpf_grid_found {
    int32_t refusal; /* 0, or 1 to 5, or 8, or 9, or 15 to 17 */
    int32_t first;   /* its declared index in each dimension; 0 past the rank */
    int32_t second;
    int32_t third;
} hpf_grid_found;

/* How many elements a section has, and the count and the steps of each dimension. */
typedef struct hpf_grid_steps {
    int64_t refusal;         /* 0, or 1 to 7, or 15 to 17 */
    int64_t count;           /* those of the dimensions, multiplied */
    hpf_steps dimensions[3]; /* with refusal 0; past the rank count 1 and no steps. All 0 if the call is refused */
} hpf_grid_steps;

/*
 * Each call takes the lists of sizes of the three dimensions, as bytes in the manner of
 * hpf_gen_block_ownership. The list of a cyclic dimension, or of one past the rank, is not
 * looked at: NULL and 0 will do. Two of them may be one. Refusals are those of the namesakes
 * without hpf_grid, and 17.
 */

/* The owner, a grid processor, and the local address of the element with these declared indices. */
hpf_owned hpf_grid_ownership(hpf_grid grid, const uint8_t *first_sizes, size_t first_sizes_bytes,
                             const uint8_t *second_sizes, size_t second_sizes_bytes, const uint8_t *third_sizes,
                             size_t third_sizes_bytes, int64_t first, int64_t second, int64_t third);

/* The element that a grid processor holds at a local address. */
hpf_grid_found hpf_grid_going_back(hpf_grid grid, const uint8_t *first_sizes, size_t first_sizes_bytes,
                                   const uint8_t *second_sizes, size_t second_sizes_bytes, const uint8_t *third_sizes,
                                   size_t third_sizes_bytes, int64_t processor, int64_t address);

/* The count of a section, and each dimension's count and steps. */
hpf_grid_steps hpf_grid_section_steps(hpf_grid_section section, const uint8_t *first_sizes, size_t first_sizes_bytes,
                                      const uint8_t *second_sizes, size_t second_sizes_bytes,
                                      const uint8_t *third_sizes, size_t third_sizes_bytes);

/* The place at which the list of a grid processor begins, or the count if it has no element. */
hpf_placed hpf_grid_first_place(hpf_grid_section section, const uint8_t *first_sizes, size_t first_sizes_bytes,
                                const uint8_t *second_sizes, size_t second_sizes_bytes, const uint8_t *third_sizes,
                                size_t third_sizes_bytes, int64_t processor);

/*
 * Writes the addresses of a grid processor's list, from a place on, as hpf_fill does: into as
 * many bytes, while 3 tries or more are left of the quota, and nothing after the entries.
 */
hpf_filled hpf_grid_fill(hpf_grid_section section, const uint8_t *first_sizes, size_t first_sizes_bytes,
                         const uint8_t *second_sizes, size_t second_sizes_bytes, const uint8_t *third_sizes,
                         size_t third_sizes_bytes, int64_t processor, int64_t place, int64_t quota, uint8_t *list,
                         size_t list_bytes);

/* A dimension of a mapping. The sizes of the second go to the calls. */
static inline hpf_dimension hpf_cyclic_dimension(hpf_mapping m)
{
    hpf_dimension dimension = {m.cells,  m.processors, HPF_CYCLIC, m.block, m.stride,
                               m.offset, m.size,       m.array_lower, m.template_lower};
    return dimension;
}

static inline hpf_dimension hpf_gen_block_dimension(hpf_gen_block_mapping m)
{
    hpf_dimension dimension = {m.cells,  m.processors, HPF_GEN_BLOCK, 0, m.stride,
                               m.offset, m.size,       m.array_lower, m.template_lower};
    return dimension;
}

/* The calls without lists, for grids whose dimensions are all cyclic. Any other is refused by 16. */
static inline hpf_owned hpf_cyclic_grid_ownership(hpf_grid grid, int64_t first, int64_t second, int64_t third)
{
    return hpf_grid_ownership(grid, NULL, 0, NULL, 0, NULL, 0, first, second, third);
}

static inline hpf_grid_found hpf_cyclic_grid_going_back(hpf_grid grid, int64_t processor, int64_t address)
{
    return hpf_grid_going_back(grid, NULL, 0, NULL, 0, NULL, 0, processor, address);
}

static inline hpf_grid_steps hpf_cyclic_grid_section_steps(hpf_grid_section section)
{
    return hpf_grid_section_steps(section, NULL, 0, NULL, 0, NULL, 0);
}

static inline hpf_placed hpf_cyclic_grid_first_place(hpf_grid_section section, int64_t processor)
{
    return hpf_grid_first_place(section, NULL, 0, NULL, 0, NULL, 0, processor);
}

static inline hpf_filled hpf_cyclic_grid_fill(hpf_grid_section section, int64_t processor, int64_t place,
                                              int64_t quota, uint8_t *list, size_t list_bytes)
{
    return hpf_grid_fill(section, NULL, 0, NULL, 0, NULL, 0, processor, place, quota, list, list_bytes);
}

#endif

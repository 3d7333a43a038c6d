/* The machines, strides and steps that are measured, and the lists of a section to measure on. */
#ifndef BENCH_INPUTS_H
#define BENCH_INPUTS_H

#include "library.h"

enum { MACHINES = 11, FEW_MACHINES = 5, STRIDES = 4, STEPS = 18 };
enum { LONG = 20000, VERY_LONG = 1000000, PLACES = 64 };

typedef struct {
    int64_t processors, block;
} machine;

/* those of document 004's table 7.2, and the largest; some of them; the alignment strides */
extern const machine machines[MACHINES];
extern const machine few_machines[FEW_MACHINES];
extern const int64_t strides[STRIDES];

/* an input, places in its list, and how many entries a call lists from one of them */
typedef struct {
    input in;
    int64_t places[PLACES];
    int64_t place_count;
    size_t entries;
} job;

/* step number i on a machine: 1, 3, 7, 11, 99, and next to a block and a course; then the same downwards */
int64_t step_of(machine m, int i);

/* the section by a step of an array of so many elements, and a processor that has a part of it */
input section_of(machine m, int64_t stride, int64_t step, int64_t size);

/* as many elements as a template can have */
int64_t largest_size(int64_t stride);

/* Says that a way does not answer what the library does, and ends the program. */
void stop_different(const char *way, const input *in);

/* A job of the whole list, as far as it is long, or very long. */
job whole_list(input in);
job very_long_list(input in);

/* A job of so many entries, from the list's first places that have as many. */
job short_lists(const job *whole, size_t entries);

#endif

/* Checkpoint, restore and their peers as calls on an input. */
#ifndef BENCH_CHECKPOINT_WAYS_H
#define BENCH_CHECKPOINT_WAYS_H

#include "library.h"
#include "timing.h"

enum { MOST_WORDS = 10000000 };

/* the library and the loops in C: those of a checkpoint from SAVE on, those of a restore from RESTORE on */
enum { LIBRARY, WORDS, POINTERS, RUNS, MEMCPY_RUNS, LOOPS };
enum { SAVE, RESTORE = LOOPS, MEMCPY = 2 * LOOPS, COPY_WAYS };

/* All ways to copy an input's words, without the loops that it has not. */
void ways_of(const input *in, timed_call *ways[COPY_WAYS]);

/* Stops the program if a loop does not write what the library does. */
void check_copies(const input *in);

/* a loop's name; and the fastest loop, by the times from SAVE or RESTORE on */
const char *loop_name(int loop);
int fastest_loop(const double times[LOOPS]);

#endif

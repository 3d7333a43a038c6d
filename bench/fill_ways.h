/* The fill and its peers as calls on a job. */
#ifndef BENCH_FILL_WAYS_H
#define BENCH_FILL_WAYS_H

#include "inputs.h"
#include "timing.h"

enum { FILL, WALK, PATTERN, OWNERS, WAYS };

/* the library by one fill, and by several; the peers on tables that stand; with their set-up; their set-up alone */
timed_call call_fill, call_fills;
timed_call call_walk, call_pattern, call_owners;
timed_call build_and_walk, build_and_pattern, build_and_owners;
timed_call build_for_walk, build_for_pattern;

/* memset of as many bytes as the library's list has */
timed_call call_memset;

/* Builds the tables of all peers for calls from the job's first place. */
void build_all(const job *j);

/* How many entries the job's list has until its columns repeat, which is the length of Itable's table. */
size_t period_of(const job *j);

/* Stops the program if a peer does not list what the library does, from any of the job's places. */
void check_ways(const job *j, timed_call *const ways[WAYS]);

#endif

/* Fills of a grid and their peers as calls on a job. */
#include "grid_ways.h"

#include <string.h>

#include "timing.h"

enum { MOST_ENTRIES = 64 * 64 * 64 };

static dimension_table tables[DIMENSIONS];
static uint32_t list[MOST_ENTRIES + CHUNK], peer_list[MOST_ENTRIES];
static volatile int64_t sink;

grid_job grid_list(grid_input in)
{
    grid_job j = {.in = in, .entries = 1};
    input name = named(&in);
    for (int d = 0; d < DIMENSIONS; d++) {
        j.parts[d] = part_of(&in, d);
        j.entries *= j.parts[d].list.entries;
    }
    if (row_length(&j) >= LONG_ROW)
        j.rank_1 = row_of(&in, j.entries);
    if (j.entries > MOST_ENTRIES)
        stop_different("room for a list", &name);
    return j;
}

/* The whole list by fills of so many entries; how many it has. */
static size_t fill_by(const grid_job *j, size_t chunk)
{
    int64_t place = j->in.place;
    size_t n = 0;
    while (place != j->in.count && n < j->entries) {
        hpf_filled filled = grid_fill(&j->in, place, list + n, chunk);
        if (filled.entries == 0)
            break;
        n += (size_t)filled.entries;
        place = filled.place;
    }
    return place == j->in.count ? n : 0;
}

static void call_fill(const void *context, int64_t call)
{
    const grid_job *j = context;
    (void)call;
    sink = (int64_t)fill_by(j, j->entries);
}

static void call_chunks(const void *context, int64_t call)
{
    (void)call;
    sink = (int64_t)fill_by(context, CHUNK);
}

static void call_loops(const void *context, int64_t call)
{
    (void)context;
    (void)call;
    list_by_tables(tables, peer_list);
}

static void call_turns(const void *context, int64_t call)
{
    (void)context;
    (void)call;
    list_by_turns(tables, peer_list);
}

static void build_and_loop(const void *context, int64_t call)
{
    const grid_job *j = context;
    for (int d = 0; d < j->in.shape.rank; d++)
        build_table(&tables[d], &j->parts[d]);
    call_loops(context, call);
}

static void call_rank_1(const void *context, int64_t call)
{
    const job *j = &((const grid_job *)context)->rank_1;
    (void)call;
    sink = (int64_t)fill_in_turns(&j->in, j->places[0], list, j->entries, NOT_COPIED);
}

static void fill_one(const void *context, int64_t call)
{
    const grid_input *g = &((const grid_job *)context)->in;
    (void)call;
    sink = grid_fill(g, g->place, list, 1).place;
}

static void stop_if_different(const grid_job *j, timed_call *const ways[GRID_WAYS])
{
    size_t bytes = sizeof list[0] * j->entries;
    input name = named(&j->in);
    for (int way = GRID_FILL; way <= GRID_CHUNKS; way++) {
        memset(list, 0xff, bytes);
        ways[way](j, 0);
        if (sink != (int64_t)j->entries)
            stop_different("number of entries by tables", &name);
        for (int peer = GRID_LOOPS; peer <= GRID_SET_UP; peer++) {
            memset(peer_list, 0xff, bytes);
            ways[peer](j, 0);
            if (memcmp(list, peer_list, bytes) != 0)
                stop_different("nest of loops over tables", &name);
        }
    }
    if (ways[GRID_RANK_1]) {
        ways[GRID_RANK_1](j, 0);
        if (sink != (int64_t)j->entries)
            stop_different("number of entries of rank 1", &name);
    }
}

void time_grid(const grid_job *j, double times[GRID_WAYS])
{
    timed_call *const ways[GRID_WAYS] = {
        call_fill, call_chunks, call_loops, call_turns, build_and_loop, j->rank_1.entries > 0 ? call_rank_1 : NULL,
        fill_one,
    };
    for (int d = 0; d < DIMENSIONS; d++)
        build_table(&tables[d], &j->parts[d]);
    stop_if_different(j, ways);
    time_ways(j, ways, GRID_WAYS, times);
}

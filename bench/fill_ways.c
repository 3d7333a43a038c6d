/* The fill and its peers as calls on a job. */
#include "fill_ways.h"

#include <string.h>

#include "peers.h"

static address_table addresses;
static move_table moves;
static pattern_table pattern;
static uint32_t list[VERY_LONG], peer_list[VERY_LONG];
static volatile int64_t sink;

static int64_t place_of_call(const job *j, int64_t call)
{
    return j->places[call % j->place_count];
}

void call_fill(const void *context, int64_t call)
{
    const job *j = context;
    sink = fill(&j->in, place_of_call(j, call), list, j->entries).place;
}

void call_fills(const void *context, int64_t call)
{
    const job *j = context;
    sink = (int64_t)fill_in_turns(&j->in, place_of_call(j, call), list, j->entries, j->entries);
}

void call_memset(const void *context, int64_t call)
{
    const job *j = context;
    memset(list, (int)call, sizeof list[0] * j->entries);
    sink = list[j->entries - 1];
}

void call_walk(const void *context, int64_t call)
{
    const job *j = context;
    walk_tables(&moves, &addresses, &j->in, place_of_call(j, call), peer_list, j->entries);
}

void call_pattern(const void *context, int64_t call)
{
    const job *j = context;
    (void)call;
    list_by_pattern(&pattern, peer_list, j->entries);
}

void call_owners(const void *context, int64_t call)
{
    const job *j = context;
    test_owners(&addresses, &j->in, place_of_call(j, call), peer_list, j->entries);
}

void build_for_walk(const void *context, int64_t call)
{
    const job *j = context;
    build_addresses(&addresses, &j->in);
    build_moves(&moves, &addresses, &j->in, place_of_call(j, call));
}

void build_for_pattern(const void *context, int64_t call)
{
    const job *j = context;
    build_addresses(&addresses, &j->in);
    build_pattern(&pattern, &addresses, &j->in, place_of_call(j, call));
}

void build_and_walk(const void *context, int64_t call)
{
    build_for_walk(context, call);
    call_walk(context, call);
}

void build_and_pattern(const void *context, int64_t call)
{
    build_for_pattern(context, call);
    call_pattern(context, call);
}

void build_and_owners(const void *context, int64_t call)
{
    build_addresses(&addresses, &((const job *)context)->in);
    call_owners(context, call);
}

void build_all(const job *j)
{
    build_for_walk(j, 0);
    build_for_pattern(j, 0);
}

size_t period_of(const job *j)
{
    build_for_pattern(j, 0);
    return pattern.length;
}

void check_ways(const job *j, timed_call *const ways[WAYS])
{
    static const char *const names[WAYS] = {"fill", "table walk", "Itable", "owner test"};
    for (int64_t call = 0; call < j->place_count; call++) {
        ways[FILL](j, call);
        for (int way = FILL + 1; way < WAYS; way++) {
            if (!ways[way])
                continue;
            memset(peer_list, 0xff, sizeof peer_list[0] * j->entries);
            ways[way](j, call);
            if (memcmp(list, peer_list, sizeof list[0] * j->entries) != 0)
                stop_different(names[way], &j->in);
        }
    }
}

/* Templates that are dealt by a list of sizes: long fills, ownership and first place, beside plain loops in C. */
#include <string.h>

#include "gen_block_peers.h"
#include "goals.h"
#include "summary.h"
#include "tables.h"
#include "timing.h"

enum { FEW = 4, MANY = 1024, SPREAD = 1024, LONGER = 200000, PASSES = 3 };
enum { FILL, LOOP, VECTORS, FILL_WAYS };
enum { OWNED, OWNED_SUMS, PLACE, PLACE_SUMS, ONE, TEN, CALLS };

static const int64_t dealt_strides[] = {1, 3}, dealt_steps[] = {1, 7, -1, -7};

/* a section, a processor's place in it, and its first address; and elements spread over all processors */
typedef struct {
    hpf_gen_block_mapping m;
    hpf_triplet s;
    int64_t processor, place;
    uint32_t address;
    size_t entries;
    int64_t index[SPREAD];
} job_by_sizes;

static int32_t sizes[MANY];
static uint32_t list[LONGER], peer_list[LONGER];
static volatile int64_t sink;

/* Sizes that grow with the processor's number: the last one has about twice the mean. */
static hpf_gen_block_mapping deal(int64_t processors, int64_t stride)
{
    hpf_gen_block_mapping m = {.cells = INT32_MAX, .processors = processors, .stride = stride};
    int64_t unit = m.cells / (processors * processors) + 1;
    for (int64_t q = 0; q < processors; q++)
        sizes[q] = (int32_t)((2 * q + 1) * unit);
    m.sizes = (const uint8_t *)sizes;
    m.sizes_bytes = sizeof sizes[0] * (size_t)processors;
    m.size = largest_size(stride);
    return m;
}

static hpf_filled fill_by_sizes(const job_by_sizes *j, size_t entries)
{
    return hpf_gen_block_fill_of(j->m, j->s, j->processor, j->place, (int64_t)entries + 2, (uint8_t *)list,
                                 sizeof list[0] * entries);
}

/* The whole array by a step, and the last processor but one. */
static job_by_sizes section_by_sizes(int64_t processors, int64_t stride, int64_t step)
{
    job_by_sizes j = {deal(processors, stride), {0, 0, step}, processors - 2, 0, 0, 0, {0}};
    int64_t last = j.m.size - 1;
    j.s.lower = step > 0 ? 0 : last;
    j.s.upper = step > 0 ? last : 0;
    j.place = hpf_gen_block_first_place_of(j.m, j.s, j.processor).place;
    j.address = (uint32_t)hpf_gen_block_ownership_of(j.m, j.s.lower + j.place * step).address;
    for (int64_t i = 0; i < SPREAD; i++)
        j.index[i] = last / SPREAD * i;
    return j;
}

static void call_fill(const void *context, int64_t call)
{
    const job_by_sizes *j = context;
    (void)call;
    sink = fill_by_sizes(j, j->entries).place;
}

static void call_loop(const void *context, int64_t call)
{
    const job_by_sizes *j = context;
    (void)call;
    list_by_step(j->address, (uint32_t)j->s.stride, peer_list, j->entries);
}

static void call_vectors(const void *context, int64_t call)
{
    const job_by_sizes *j = context;
    (void)call;
    list_by_vectors(j->address, (uint32_t)j->s.stride, peer_list, j->entries);
}

static void call_ownership(const void *context, int64_t call)
{
    const job_by_sizes *j = context;
    sink = hpf_gen_block_ownership_of(j->m, j->index[call % SPREAD]).address;
}

static void sum_ownership(const void *context, int64_t call)
{
    const job_by_sizes *j = context;
    sink = owner_by_sums(&j->m, j->index[call % SPREAD]).address;
}

static void call_first_place(const void *context, int64_t call)
{
    const job_by_sizes *j = context;
    (void)call;
    sink = hpf_gen_block_first_place_of(j->m, j->s, j->processor).place;
}

static void sum_first_place(const void *context, int64_t call)
{
    const job_by_sizes *j = context;
    (void)call;
    sink = first_place_by_sums(&j->m, &j->s, j->processor);
}

static void fill_one(const void *context, int64_t call)
{
    (void)call;
    sink = fill_by_sizes(context, 1).place;
}

static void fill_ten(const void *context, int64_t call)
{
    (void)call;
    sink = fill_by_sizes(context, 10).place;
}

/* what a goal or a difference names; there is no block */
static input named(const job_by_sizes *j)
{
    return (input){j->m.cells, j->m.processors, 0, j->m.stride, j->m.size, j->s.lower, j->s.upper, j->s.stride,
                   j->processor};
}

static void stop_if_different(const job_by_sizes *j)
{
    timed_call *const loops[] = {call_loop, call_vectors};
    input in = named(j);
    call_fill(j, 0);
    for (int loop = 0; loop < 2; loop++) {
        memset(peer_list, 0xff, sizeof list[0] * j->entries);
        loops[loop](j, 0);
        if (memcmp(list, peer_list, sizeof list[0] * j->entries) != 0)
            stop_different("C loop of a fill by sizes", &in);
    }
    if (j->place != first_place_by_sums(&j->m, &j->s, j->processor))
        stop_different("first place by sums", &in);
    for (int64_t i = 0; i < SPREAD; i++) {
        hpf_owned owned = hpf_gen_block_ownership_of(j->m, j->index[i]), sum = owner_by_sums(&j->m, j->index[i]);
        if (owned.refusal != HPF_ACCEPTED || memcmp(&owned, &sum, sizeof sum) != 0)
            stop_different("ownership by sums", &in);
    }
}

/* Nanoseconds per address of a list of so many entries, if it has as many: the least of some passes. */
static void time_fill(job_by_sizes *j, size_t most, double times[FILL_WAYS])
{
    timed_call *const ways[FILL_WAYS] = {call_fill, call_loop, call_vectors};
    j->entries = (size_t)fill_by_sizes(j, most).entries;
    stop_if_different(j);
    for (int pass = 0; pass < PASSES; pass++) {
        double now[FILL_WAYS];
        time_ways(j, ways, FILL_WAYS, now);
        for (int way = 0; way < FILL_WAYS; way++)
            if (pass == 0 || now[way] / (double)j->entries < times[way])
                times[way] = now[way] / (double)j->entries;
    }
}

static void print_times(const double times[FILL_WAYS])
{
    for (int way = 0; way < FILL_WAYS; way++)
        printf(" %.2f |", times[way]);
    printf(" %.2f |", times[FILL] / times[LOOP]);
}

static void print_fills(int64_t processors, int64_t stride, int64_t step)
{
    job_by_sizes j = section_by_sizes(processors, stride, step);
    double times[FILL_WAYS], longer[FILL_WAYS];
    input in = named(&j);
    printf("| %" PRId64 " | %" PRId64 " | %" PRId64 " |", stride, processors, step);
    time_fill(&j, LONG, times);
    print_times(times);
    time_fill(&j, LONGER, longer);
    printf(" %zu |", j.entries);
    print_times(longer);
    printf("\n");
    hold_against(FILL_BY_SIZES, longer[FILL] / longer[LOOP], &in);
}

static void print_calls(int64_t processors, int64_t stride)
{
    timed_call *const calls[CALLS] = {call_ownership, sum_ownership, call_first_place, sum_first_place, fill_one,
                                      fill_ten};
    job_by_sizes j = section_by_sizes(processors, stride, 7);
    double times[CALLS];
    j.entries = 10;
    stop_if_different(&j);
    time_ways(&j, calls, CALLS, times);
    printf("| %" PRId64 " | %" PRId64 " |", stride, processors);
    for (int call = 0; call < CALLS; call++)
        printf(" %.0f |", times[call]);
    printf("\n");
}

void print_gen_block(void)
{
    printf("\n## Long fills by sizes\n\n"
           "GEN_BLOCK, T = 2,147,483,647, sizes that grow with the processor's number: lists of %d entries, and of up\n"
           "to %d, ns per address. The C loop adds the step, and is told the first address and how many there are:\n"
           "one address to a turn, and in vectors, as the compiler makes it if it may.\n\n"
           "| a | p | s | fill | C loop | in vectors | fill / loop | entries | fill | C loop | in vectors "
           "| fill / loop |\n"
           "|---|---|---|---|---|---|---|---|---|---|---|---|\n",
           LONG, LONGER);
    for (int64_t processors = FEW; processors <= MANY; processors *= MANY / FEW)
        for (int a = 0; a < 2; a++)
            for (int i = 0; i < 4; i++)
                print_fills(processors, dealt_strides[a], dealt_steps[i]);
    printf("\n## Calls by sizes\n\n"
           "ns per call, at %d elements of all processors, s = 7. The C loops add up the sizes as far as they must.\n\n"
           "| a | p | ownership | C loop | first place | C loop | fill of 1 | fill of 10 |\n"
           "|---|---|---|---|---|---|---|---|\n",
           SPREAD);
    for (int64_t processors = FEW; processors <= MANY; processors *= MANY / FEW)
        for (int a = 0; a < 2; a++)
            print_calls(processors, dealt_strides[a]);
}

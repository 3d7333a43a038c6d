/* Checkpoint and restore, beside plain loops in C and one memcpy. */
#include "checkpoint_ways.h"
#include "goals.h"
#include "summary.h"
#include "tables.h"

enum { COPY_MACHINES = 8, COPY_STRIDES = 3, PASSES = 3, ROUNDS = 2, LONG_RUN = 64 };

static const machine copy_machines[COPY_MACHINES] = {
    {4, 1}, {4, 8}, {4, 64}, {4, 1024}, {1024, 1}, {1024, 8}, {1024, 64}, {1024, 1024},
};
static const int64_t copy_strides[COPY_STRIDES] = {1, 3, 64};

/* each input's times, the least of all passes */
typedef struct {
    input in;
    double times[COPY_WAYS];
} measured;

static measured copies[COPY_STRIDES][COPY_MACHINES];

/* an array of so many elements; no section */
static input array_of(machine m, int64_t stride, int64_t size)
{
    return (input){stride * (size - 1) + 1, m.processors, m.block, stride, size, 0, size - 1, 0, 0};
}

static void measure(measured *c, int pass)
{
    timed_call *ways[COPY_WAYS];
    double times[COPY_WAYS];
    ways_of(&c->in, ways);
    if (pass == 0)
        check_copies(&c->in);
    time_long_calls(&c->in, ways, COPY_WAYS, ROUNDS, times);
    for (int way = 0; way < COPY_WAYS; way++)
        if (pass == 0 || times[way] < c->times[way])
            c->times[way] = times[way];
}

/* All inputs, and all again: a disturbance that lasts for seconds meets an input once only. */
static void measure_all(void)
{
    for (int pass = 0; pass < PASSES; pass++)
        for (int a = 0; a < COPY_STRIDES; a++)
            for (int m = 0; m < COPY_MACHINES; m++) {
                measured *c = &copies[a][m];
                if (pass == 0)
                    c->in = array_of(copy_machines[m], copy_strides[a], MOST_WORDS);
                measure(c, pass);
            }
}

static double per_word(const measured *c, int way)
{
    return c->times[way] / (double)c->in.size;
}

static void print_each(const measured *c)
{
    for (int first = SAVE; first <= RESTORE; first += RESTORE) {
        fprintf(stderr, "a %" PRId64 " p %" PRId64 " k %" PRId64 " %s:", c->in.stride, c->in.processors, c->in.block,
                first == SAVE ? "checkpoint" : "restore");
        for (int loop = LIBRARY; loop < LOOPS; loop++)
            if (c->times[first + loop] > 0)
                fprintf(stderr, " %s %.2f", loop_name(loop), per_word(c, first + loop));
        fprintf(stderr, "\n");
    }
}

static void print_copies(machine m, int64_t stride, const measured *c)
{
    const double *t = c->times;
    int saving = SAVE + fastest_loop(&t[SAVE]), restoring = RESTORE + fastest_loop(&t[RESTORE]);
    print_machine(m, stride);
    printf(" %.2f | %.2f | %.2f | %.2f | %.2f | %.2f | %.2f | %.2f | %.2f | %s | %s |\n", per_word(c, SAVE),
           per_word(c, saving), per_word(c, RESTORE), per_word(c, restoring), per_word(c, MEMCPY),
           t[SAVE] / t[saving], t[RESTORE] / t[restoring], t[SAVE] / t[MEMCPY], t[RESTORE] / t[MEMCPY],
           loop_name(saving - SAVE), loop_name(restoring - RESTORE));
    hold_against(CHECKPOINT_LOOP, t[SAVE] / t[saving], &c->in);
    hold_against(RESTORE_LOOP, t[RESTORE] / t[restoring], &c->in);
    if (m.block >= LONG_RUN * stride) {
        hold_against(CHECKPOINT_MEMCPY, t[SAVE] / t[MEMCPY], &c->in);
        hold_against(RESTORE_MEMCPY, t[RESTORE] / t[MEMCPY], &c->in);
    }
}

static void print_set_up(machine m, int64_t stride, int64_t size)
{
    timed_call *ways[COPY_WAYS];
    double times[MEMCPY];
    input in = array_of(m, stride, size);
    ways_of(&in, ways);
    check_copies(&in);
    time_ways(&in, ways, MEMCPY, times);
    print_machine(m, stride);
    printf(" %" PRId64 " | %.0f | %.0f | %.0f | %.0f |\n", size, times[SAVE], times[SAVE + fastest_loop(&times[SAVE])],
           times[RESTORE], times[RESTORE + fastest_loop(&times[RESTORE])]);
}

static void print_set_ups(void)
{
    static const machine grown[] = {{4, 64}, {4, 65536}, {1024, 64}, {1024, 65536}};
    printf("\n## Checkpoint and restore of short arrays\n\n"
           "ns per call, set-up counted on both sides.\n\n"
           "| a | p | k | n | checkpoint | C loop | restore | C loop |\n"
           "|---|---|---|---|---|---|---|---|\n");
    for (int64_t size = 1000; size <= 100000; size *= 100)
        for (int64_t stride = 1; stride <= 3; stride += 2)
            for (size_t i = 0; i < sizeof grown / sizeof grown[0]; i++)
                print_set_up(grown[i], stride, size);
}

void print_checkpoints(int each_input)
{
    measure_all();
    printf("\n## Checkpoint and restore\n\n"
           "n = %d, ns per word. The C loop is the fastest of four, which the last columns name: word by word, with a\n"
           "row of counters (words) or of pointers; or block by block, with an inner loop (runs) or a memcpy each.\n\n"
           "| a | p | k | checkpoint | C loop | restore | C loop | memcpy of n words | checkpoint / loop "
           "| restore / loop | checkpoint / memcpy | restore / memcpy | loop of checkpoint | of restore |\n"
           "|---|---|---|---|---|---|---|---|---|---|---|---|---|---|\n",
           MOST_WORDS);
    for (int a = 0; a < COPY_STRIDES; a++)
        for (int i = 0; i < COPY_MACHINES; i++) {
            print_copies(copy_machines[i], copy_strides[a], &copies[a][i]);
            if (each_input)
                print_each(&copies[a][i]);
        }
    print_set_ups();
}

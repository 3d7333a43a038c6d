/* Very long fills: lists that the nearer caches do not hold, made by several calls, beside memset of the list. */
#include "fill_ways.h"
#include "goals.h"
#include "summary.h"
#include "tables.h"

enum { BLOCKS = 4, PROCESSORS = 4, PASSES = 3 };
enum { BUILT_PATTERN = PATTERN + 1, MEMSET, COLUMNS };

static const int64_t blocks[BLOCKS] = {2, 16, 128, 1024};

/* each input's times per address, the least of all passes; few entries where the section is too short */
typedef struct {
    job of;
    double times[COLUMNS];
} measured;

static measured fills[STRIDES][BLOCKS][STEPS];

static int is_very_long(const measured *f)
{
    return f->of.entries == VERY_LONG;
}

static void measure(measured *f, int pass)
{
    timed_call *const held[WAYS] = {call_fills, call_walk, call_pattern, NULL};
    timed_call *const ways[COLUMNS] = {call_fills, call_walk, call_pattern, build_and_pattern, call_memset};
    double times[COLUMNS];
    build_all(&f->of);
    if (pass == 0)
        check_ways(&f->of, held);
    time_ways(&f->of, ways, COLUMNS, times);
    for (int i = 0; i < COLUMNS; i++)
        if (pass == 0 || times[i] / VERY_LONG < f->times[i])
            f->times[i] = times[i] / VERY_LONG;
}

/* All inputs, and all again, as the long fills are. */
static void measure_all(void)
{
    for (int pass = 0; pass < PASSES; pass++)
        for (int a = 0; a < STRIDES; a++)
            for (int k = 0; k < BLOCKS; k++)
                for (int i = 0; i < STEPS; i++) {
                    const machine m = {PROCESSORS, blocks[k]};
                    measured *f = &fills[a][k][i];
                    if (pass == 0)
                        f->of = very_long_list(section_of(m, strides[a], step_of(m, i), largest_size(strides[a])));
                    if (is_very_long(f))
                        measure(f, pass);
                }
}

static void print_each(const measured *f)
{
    const input *in = &f->of.in;
    const double *t = f->times;
    fprintf(stderr, "a %" PRId64 " p %" PRId64 " k %" PRId64 " s %" PRId64 " entries %d:", in->stride, in->processors,
            in->block, in->step, VERY_LONG);
    fprintf(stderr, " fills %.3f walk %.3f Itable %.3f with set-up %.3f memset %.3f\n", t[FILL], t[WALK], t[PATTERN],
            t[BUILT_PATTERN], t[MEMSET]);
}

/* A row, if the machine has sections with lists that are very long. */
static void print_machine_very_long(int a, int k, int each_input)
{
    summary to_memset = {0}, to_pattern = {0};
    for (int i = 0; i < STEPS; i++) {
        const measured *f = &fills[a][k][i];
        const double *t = f->times;
        if (!is_very_long(f))
            continue;
        add(&to_memset, t, COLUMNS, t[FILL] / t[MEMSET], f->of.in.step);
        add(&to_pattern, t, COLUMNS, t[FILL] / t[PATTERN], f->of.in.step);
        hold_against(VERY_LONG_FILLS, t[FILL] / t[MEMSET], &f->of.in);
        if (each_input)
            print_each(f);
    }
    if (to_memset.inputs == 0)
        return;
    print_machine((machine){PROCESSORS, blocks[k]}, strides[a]);
    printf(" %d |", to_memset.inputs);
    for (int column = 0; column < COLUMNS; column++)
        print_mean(&to_memset, column, 3);
    printf(" %.2f | %.2f | %" PRId64 " | %.2f |\n", mean_ratio(&to_memset), to_memset.worst, to_memset.worst_step,
           mean_ratio(&to_pattern));
}

void print_very_long_fills(int each_input)
{
    measure_all();
    printf("\n## Very long fills\n\n"
           "Lists of %d entries, 4 MB, ns per address; sections that have as many. Several fills of the largest\n"
           "quota make a list, each from where the one before it came to. `memset` writes as many bytes. Where L3 is\n"
           "larger than the list, and L2 smaller, the list stays in L3, and `memset` is that of a list in L3, not in\n"
           "memory; the sizes stand above the tables.\n\n"
           "| a | p | k | inputs | fills | table walk | Itable | Itable with set-up | memset | fills / memset | worst "
           "| at s | fills / Itable |\n"
           "|---|---|---|---|---|---|---|---|---|---|---|---|---|\n",
           VERY_LONG);
    for (int a = 0; a < STRIDES; a++)
        for (int k = 0; k < BLOCKS; k++)
            print_machine_very_long(a, k, each_input);
}

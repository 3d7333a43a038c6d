/* Long fills: nanoseconds per address, beside the peers on tables that stand; and those of lists that repeat. */
#include "fill_ways.h"
#include "goals.h"
#include "summary.h"
#include "tables.h"

enum { LONG_ENOUGH = 1000, OWNERS_TESTED = 200, PASSES = 3, MANY_PERIODS = 8 };
enum { WALK_SET_UP = WAYS, PATTERN_SET_UP, BUILT_PATTERN, COLUMNS };

/* Each input's times, the least of all passes; entries are 0 where the section is too short. */
typedef struct {
    job of;
    size_t period;
    double times[COLUMNS];
} measured;

/* a row's inputs by the fill's ratio to the table walk, to Itable, and to Itable with its set-up */
typedef struct {
    summary walk, pattern, built;
} row_summary;

/* those of many periods by two of these ratios, and the entries in the longest period */
typedef struct {
    summary walk, pattern;
    size_t longest;
} repeating_summary;

static measured fills[STRIDES][MACHINES][STEPS];

static goal goal_of(const input *in)
{
    if (in->stride == 1)
        return LONG_STRIDE_1;
    return in->step == 1 || in->step == -1 ? LONG_STEP_1 : LONG_OTHER;
}

static int repeats(const measured *f)
{
    return f->of.entries >= MANY_PERIODS * f->period;
}

/* Nanoseconds per address of each way, and per call of the peers' set-ups. */
static void time_long(job j, double times[COLUMNS])
{
    timed_call *const ways[WAYS] = {call_fill, call_walk, call_pattern, NULL};
    timed_call *const set_ups[COLUMNS - WAYS] = {build_for_walk, build_for_pattern, build_and_pattern};
    timed_call *const owners[WAYS] = {call_fill, NULL, NULL, call_owners};
    build_all(&j);
    check_ways(&j, ways);
    time_ways(&j, ways, WAYS, times);
    for (int way = 0; way < WAYS; way++)
        times[way] /= (double)j.entries;
    time_ways(&j, set_ups, COLUMNS - WAYS, &times[WAYS]);
    times[BUILT_PATTERN] /= (double)j.entries;
    j.entries = OWNERS_TESTED;
    check_ways(&j, owners);
    times[OWNERS] = time_one(&j, call_owners) / OWNERS_TESTED;
}

static void measure(measured *f, int pass)
{
    double times[COLUMNS];
    time_long(f->of, times);
    for (int i = 0; i < COLUMNS; i++)
        if (pass == 0 || times[i] < f->times[i])
            f->times[i] = times[i];
}

static void find_list(measured *f, machine m, int64_t stride, int64_t step)
{
    f->of = whole_list(section_of(m, stride, step, largest_size(stride)));
    f->period = period_of(&f->of);
}

/* All inputs, and all again: a disturbance that lasts for seconds meets an input once only. */
static void measure_all(void)
{
    for (int pass = 0; pass < PASSES; pass++)
        for (int a = 0; a < STRIDES; a++)
            for (int m = 0; m < MACHINES; m++)
                for (int i = 0; i < STEPS; i++) {
                    measured *f = &fills[a][m][i];
                    if (pass == 0)
                        find_list(f, machines[m], strides[a], step_of(machines[m], i));
                    if (f->of.entries >= LONG_ENOUGH)
                        measure(f, pass);
                }
}

static void print_each(const measured *f)
{
    const input *in = &f->of.in;
    const double *t = f->times;
    fprintf(stderr, "a %" PRId64 " p %" PRId64 " k %" PRId64 " s %" PRId64 " entries %zu period %zu:", in->stride,
            in->processors, in->block, in->step, f->of.entries, f->period);
    fprintf(stderr, " fill %.3f walk %.3f Itable %.3f with set-up %.3f; set-up %.0f\n", t[FILL], t[WALK], t[PATTERN],
            t[BUILT_PATTERN], t[PATTERN_SET_UP]);
}

static void add_input(row_summary *r, const measured *f)
{
    const double *t = f->times;
    const input *in = &f->of.in;
    add(&r->walk, t, COLUMNS, t[FILL] / t[WALK], in->step);
    add(&r->pattern, t, COLUMNS, t[FILL] / t[PATTERN], in->step);
    add(&r->built, t, COLUMNS, t[FILL] / t[BUILT_PATTERN], in->step);
    hold_against(goal_of(in), t[FILL] / t[WALK], in);
    hold_against(LONG_ITABLE, t[FILL] / t[BUILT_PATTERN], in);
}

static void add_repeating(repeating_summary *r, const measured *f)
{
    const double *t = f->times;
    const input *in = &f->of.in;
    if (f->period > r->longest)
        r->longest = f->period;
    add(&r->walk, t, COLUMNS, t[FILL] / t[WALK], in->step);
    add(&r->pattern, t, COLUMNS, t[FILL] / t[PATTERN], in->step);
    hold_against(REPEATING, t[FILL] / t[WALK], in);
    hold_against(REPEATING_ITABLE, t[FILL] / t[PATTERN], in);
}

static void print_ratio(const summary *s)
{
    printf(" %.2f | %.2f | %" PRId64 " |", mean_ratio(s), s->worst, s->worst_step);
}

/* A row of all lists that are long enough, if the machine has one. */
static void print_machine_long(machine m, int64_t stride, const measured of_steps[STEPS], int each_input)
{
    row_summary r = {0};
    for (int i = 0; i < STEPS; i++) {
        const measured *f = &of_steps[i];
        if (f->of.entries < LONG_ENOUGH)
            continue;
        add_input(&r, f);
        if (each_input)
            print_each(f);
    }
    if (r.walk.inputs == 0)
        return;
    print_machine(m, stride);
    printf(" %d |", r.walk.inputs);
    for (int way = 0; way < WAYS; way++)
        print_mean(&r.walk, way, way == OWNERS ? 0 : 2);
    print_ratio(&r.walk);
    printf(" %.2f |", mean_ratio(&r.pattern));
    print_ratio(&r.built);
    print_mean(&r.walk, WALK_SET_UP, 0);
    print_mean(&r.walk, PATTERN_SET_UP, 0);
    printf("\n");
}

/* A row of lists that repeat, if the machine has one; its mean is held against a goal too. */
static void print_machine_repeating(machine m, int64_t stride, const measured of_steps[STEPS])
{
    repeating_summary r = {0};
    const input row = {.processors = m.processors, .block = m.block, .stride = stride};
    for (int i = 0; i < STEPS; i++)
        if (of_steps[i].of.entries >= LONG_ENOUGH && repeats(&of_steps[i]))
            add_repeating(&r, &of_steps[i]);
    if (r.walk.inputs == 0)
        return;
    hold_against(REPEATING_ROWS, mean_ratio(&r.walk), &row);
    print_machine(m, stride);
    printf(" %d | %zu |", r.walk.inputs, r.longest);
    for (int way = FILL; way <= PATTERN; way++)
        print_mean(&r.walk, way, 2);
    print_ratio(&r.walk);
    print_ratio(&r.pattern);
    printf("\n");
}

static void print_repeating(void)
{
    printf("\n### Lists of %d periods or more\n\n"
           "Those of the lists above that have %d periods or more: in a period's entries no column is met twice, and\n"
           "each entry of the next period is larger by the same number. Itable is without its set-up.\n\n"
           "| a | p | k | inputs | longest period | fill | table walk | Itable | fill / walk | worst | at s "
           "| fill / Itable | worst | at s |\n"
           "|---|---|---|---|---|---|---|---|---|---|---|---|---|---|\n",
           MANY_PERIODS, MANY_PERIODS);
    for (int a = 0; a < STRIDES; a++)
        for (int i = 0; i < MACHINES; i++)
            print_machine_repeating(machines[i], strides[a], fills[a][i]);
}

void print_long_fills(int each_input)
{
    measure_all();
    printf("\n## Long fills\n\n"
           "Up to %d entries, ns per address; sections that have %d entries or more. The peers' set-up is left out,\n"
           "but for the ratio to Itable with its set-up, and given in ns per call in the last two columns.\n\n"
           "| a | p | k | inputs | fill | table walk | Itable | owner test | fill / walk | worst | at s "
           "| fill / Itable | with set-up | worst | at s | walk's set-up | Itable's set-up |\n"
           "|---|---|---|---|---|---|---|---|---|---|---|---|---|---|---|---|---|\n",
           LONG, LONG_ENOUGH);
    for (int a = 0; a < STRIDES; a++)
        for (int i = 0; i < MACHINES; i++)
            print_machine_long(machines[i], strides[a], fills[a][i], each_input);
    print_repeating();
}

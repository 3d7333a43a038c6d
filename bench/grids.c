/* Fills of sections of grids, beside nested loops over tables of the dimensions and beside the fill of rank 1. */
#include "goals.h"
#include "grid_ways.h"
#include "summary.h"
#include "tables.h"

enum { PASSES = 3, OTHER_SECTIONS = 4 };
enum { REST = GRID_WAYS, COLUMNS };

/* each input's times, the least of all passes; the rest is what a fill takes more than one of one entry */
typedef struct {
    grid_job of;
    double times[COLUMNS];
} measured;

/* inputs with rows of some lengths: the fill beside the loops, and what their goal holds */
typedef struct {
    summary loops, held;
    size_t shortest, longest;
} row_summary;

static measured fills[GRID_STRIDES][SHAPES][GRID_BLOCKS][GRID_SECTIONS][SPOTS];

/* with the alignment stride 1 all of them, else the first few */
static int sections_of(int a)
{
    return grid_strides[a] == 1 ? GRID_SECTIONS : OTHER_SECTIONS;
}

static void measure(measured *f, int pass)
{
    double times[GRID_WAYS];
    time_grid(&f->of, times);
    for (int way = 0; way < GRID_WAYS; way++)
        if (pass == 0 || times[way] < f->times[way])
            f->times[way] = times[way];
}

static void measure_grid(int a, int g, int k, int pass)
{
    for (int s = 0; s < sections_of(a); s++)
        for (int spot = 0; spot < SPOTS; spot++) {
            measured *f = &fills[a][g][k][s][spot];
            if (pass == 0)
                f->of = grid_list(grid_of(shapes[g], grid_blocks[k], grid_strides[a], grid_steps[s], spot));
            measure(f, pass);
        }
}

/* All inputs, and all again: a disturbance that lasts for seconds meets an input once only. */
static void measure_all(void)
{
    for (int pass = 0; pass < PASSES; pass++)
        for (int a = 0; a < GRID_STRIDES; a++)
            for (int g = 0; g < SHAPES; g++)
                for (int k = 0; k < GRID_BLOCKS; k++)
                    measure_grid(a, g, k, pass);
}

/* Nanoseconds per address, but for the fill of one entry. A few entries may take no longer than one. */
static void per_address(const measured *f, double times[COLUMNS])
{
    const double shortest = 0.001;
    double entries = (double)f->of.entries, rest = (f->times[GRID_FILL] - f->times[GRID_ONE]) / entries;
    for (int way = 0; way < GRID_ONE; way++)
        times[way] = f->times[way] / entries;
    times[GRID_ONE] = f->times[GRID_ONE];
    times[REST] = rest > shortest ? rest : shortest;
}

static void print_each(const measured *f, const double times[COLUMNS])
{
    const grid_input *g = &f->of.in;
    fprintf(stderr, "a %" PRId64 " rank %" PRId64 " p %" PRId64 " k %" PRId64 " s %" PRId64 " %" PRId64
            " processor %" PRId64 ", %zu entries in rows of %zu:", g->stride, g->shape.rank, g->shape.processors,
            g->block, g->step.first, g->step.others, g->processor, f->of.entries, row_length(&f->of));
    for (int column = 0; column < COLUMNS; column++)
        fprintf(stderr, " %.3f", times[column]);
    fprintf(stderr, "\n");
}

/* Adds an input, and holds long rows against rank 1, others against the loops. */
static void add_input(row_summary *r, const measured *f, const double t[COLUMNS], int section)
{
    size_t length = row_length(&f->of);
    double to_loops = t[GRID_FILL] / t[GRID_LOOPS], held = t[REST] / t[GRID_LOOPS];
    input in = named(&f->of.in);
    if (r->loops.inputs == 0 || length < r->shortest)
        r->shortest = length;
    if (length > r->longest)
        r->longest = length;
    if (length >= LONG_ROW) {
        held = t[GRID_FILL] / t[GRID_RANK_1];
        hold_against(GRID_LONG_ROWS, held, &in);
    } else {
        hold_against(GRID_SHORT_ROWS, to_loops, &in);
        hold_against(GRID_SHORT_REST, held, &in);
    }
    hold_against(GRID_ONE_ENTRY, t[GRID_ONE], &in);
    add(&r->loops, t, COLUMNS, to_loops, section);
    add(&r->held, t, COLUMNS, held, section);
}

static void print_summary(const row_summary *r, int a, int g, int k)
{
    static const int order[COLUMNS - 1] = {GRID_FILL, GRID_CHUNKS, REST, GRID_LOOPS, GRID_TURNS, GRID_SET_UP,
                                           GRID_RANK_1};
    printf("| %" PRId64 " |", grid_strides[a]);
    print_shape(shapes[g]);
    printf(" %" PRId64 " | %d | %zu to %zu |", grid_blocks[k], r->loops.inputs, r->shortest, r->longest);
    print_mean(&r->loops, GRID_ONE, 0);
    for (int i = 0; i < COLUMNS - 1; i++)
        print_mean(&r->loops, order[i], 2);
    printf(" %.2f | %.2f | %.2f |", mean_ratio(&r->loops), mean_ratio(&r->held), r->held.worst);
    print_steps(shapes[g], grid_steps[r->held.worst_step]);
    printf("\n");
}

/* A row of the table, if the grid has inputs with rows of such lengths. */
static void print_grid(int a, int g, int k, size_t least, size_t most, int each_input)
{
    row_summary r = {0};
    for (int s = 0; s < sections_of(a); s++)
        for (int spot = 0; spot < SPOTS; spot++) {
            const measured *f = &fills[a][g][k][s][spot];
            double times[COLUMNS];
            if (row_length(&f->of) < least || row_length(&f->of) > most)
                continue;
            per_address(f, times);
            add_input(&r, f, times, s);
            if (each_input)
                print_each(f, times);
        }
    if (r.loops.inputs > 0)
        print_summary(&r, a, g, k);
}

static void print_lengths(size_t least, size_t most, int each_input)
{
    printf("\n### Rows of %zu to %zu entries\n\n"
           "| a | grid | k | inputs | entries in a row | fill of 1 | fill | fills of %d | rest | nested loops "
           "| one to a turn | with set-up | rank 1 | fill / loops | %s | worst | at s |\n"
           "|---|---|---|---|---|---|---|---|---|---|---|---|---|---|---|---|---|\n",
           least, most, CHUNK, least >= LONG_ROW ? "fill / rank 1" : "rest / loops");
    for (int a = 0; a < GRID_STRIDES; a++)
        for (int g = 0; g < SHAPES; g++)
            for (int k = 0; k < GRID_BLOCKS; k++)
                print_grid(a, g, k, least, most, each_input);
}

void print_grids(int each_input)
{
    enum { SHORT_ROW = 16 };
    measure_all();
    printf("\n## Fills of grids\n\n"
           "Matrices of 1,000 x 1,000 and 100 x 100 x 100, the same k in every dimension, and in every dimension the\n"
           "first coordinate, a middle one and the last, of those that have a part of the section. ns per call of a\n"
           "fill of one entry, and ns per address of a processor's whole list: by one fill; by fills of %d entries;\n"
           "by one fill, less a fill of 1 (rest); by nested loops over tables that stand, in vectors and one address\n"
           "to a turn; by nested loops in vectors, with the tables' set-up; and, for rows of %d entries or more, by a\n"
           "fills of rank 1, of the first dimension alone, so much longer that they list as many, in lists of %d\n"
           "entries, which are not copied by their periods.\n",
           CHUNK, LONG_ROW, NOT_COPIED);
    print_lengths(LONG_ROW, LONGEST_TABLE, each_input);
    print_lengths(SHORT_ROW, LONG_ROW - 1, each_input);
    print_lengths(1, SHORT_ROW - 1, each_input);
}

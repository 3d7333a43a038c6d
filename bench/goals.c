/* The goals of speed. */
#include "goals.h"

#include <inttypes.h>
#include <stdio.h>

typedef struct {
    const char *what, *unit;
    double bound;
    int at_least;
    int inputs, met;
    double worst;
    input where;
} held;

static held goals[GOALS] = {
    [LONG_STRIDE_1] = {"long fills, a = 1: fill / table walk", "", 1.0, 0, 0, 0, 0, {0}},
    [LONG_STEP_1] = {"long fills, \\|s\\| = 1, other a: fill / table walk", "", 1.0, 0, 0, 0, 0, {0}},
    [LONG_OTHER] = {"long fills, other a and s: fill / table walk", "", 2.0, 0, 0, 0, 0, {0}},
    [REPEATING_ROWS] = {"8 periods or more: fill / table walk, mean of a row", "", 0.2, 0, 0, 0, 0, {0}},
    [REPEATING] = {"8 periods or more: fill / table walk", "", 0.35, 0, 0, 0, 0, {0}},
    [REPEATING_ITABLE] = {"8 periods or more: fill / Itable without its set-up", "", 1.5, 0, 0, 0, 0, {0}},
    [LONG_ITABLE] = {"long fills: fill / Itable with its set-up", "", 1.0, 0, 0, 0, 0, {0}},
    [VERY_LONG_FILLS] = {"fills of 1,000,000 entries: fill / memset", "", 2.0, 0, 0, 0, 0, {0}},
    [SHORT_FILLS] = {"short fills, k = 65,536: table walk with its set-up / fill", "", 20.0, 1, 0, 0, 0, {0}},
    [GOING_BACK] = {"going back, a = 1", " ns", 1000.0, 0, 0, 0, 0, {0}},
    [CHECKPOINT_LOOP] = {"checkpoint / C loop", "", 1.3, 0, 0, 0, 0, {0}},
    [RESTORE_LOOP] = {"restore / C loop", "", 1.3, 0, 0, 0, 0, {0}},
    [CHECKPOINT_MEMCPY] = {"k / a of 64 or more: checkpoint / memcpy", "", 2.0, 0, 0, 0, 0, {0}},
    [RESTORE_MEMCPY] = {"k / a of 64 or more: restore / memcpy", "", 2.0, 0, 0, 0, 0, {0}},
    [FILL_BY_SIZES] = {"long fills by sizes: fill / C loop", "", 1.2, 0, 0, 0, 0, {0}},
    [GRID_LONG_ROWS] = {"grids, rows of 64 entries or more: fill / rank 1", "", 1.2, 0, 0, 0, 0, {0}},
    [GRID_SHORT_ROWS] = {"grids, shorter rows: fill / nested loops", "", 2.0, 0, 0, 0, 0, {0}},
    [GRID_SHORT_REST] = {"grids, shorter rows: fill less a fill of 1 / nested loops", "", 2.0, 0, 0, 0, 0, {0}},
    [GRID_ONE_ENTRY] = {"grids: fill of 1", " ns", 2000.0, 0, 0, 0, 0, {0}},
};

void hold_against(goal g, double figure, const input *in)
{
    held *h = &goals[g];
    int worse = h->at_least ? figure < h->worst : figure > h->worst;
    if (h->inputs == 0 || worse) {
        h->worst = figure;
        h->where = *in;
    }
    h->inputs++;
    h->met += h->at_least ? figure >= h->bound : figure <= h->bound;
}

/* A number of an input, or a dash for one that it has not. */
static void print_number(int64_t number)
{
    if (number == 0)
        printf(" - |");
    else
        printf(" %" PRId64 " |", number);
}

void print_goals(void)
{
    printf("\n## Goals\n\n"
           "| goal | bound | worst | met | at p | k | a | s | inputs that meet it |\n"
           "|---|---|---|---|---|---|---|---|---|\n");
    for (goal g = 0; g < GOALS; g++) {
        const held *h = &goals[g];
        const input *in = &h->where;
        if (h->inputs == 0)
            continue;
        printf("| %s | at %s %.4g%s | %.4g%s | %s |", h->what, h->at_least ? "least" : "most", h->bound, h->unit,
               h->worst, h->unit, h->met == h->inputs ? "yes" : "**no**");
        print_number(in->processors);
        print_number(in->block);
        print_number(in->stride);
        print_number(in->step);
        printf(" %d of %d |\n", h->met, h->inputs);
    }
}

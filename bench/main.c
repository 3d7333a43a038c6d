/*
 * Prints all tables in Markdown, and says on standard error which is being measured. With the argument `each` every long
 * and very long fill, every loop beside a checkpoint and every fill of a grid is printed there too. With `checkpoints`,
 * `gen_block` or `grids` it prints the tables and the goals of these only.
 */
#include <stdio.h>
#include <string.h>
#include <time.h>
#include <unistd.h>

#include "goals.h"
#include "tables.h"

/* A table, which is printed one way or the other; those of a part can be asked for alone. */
typedef struct table {
    const char *name, *part;
    void (*print)(void);
    void (*print_each)(int each_input);
} table;

static const table TABLES[] = {
    {.name = "long fills", .print_each = print_long_fills},
    {.name = "very long fills", .print_each = print_very_long_fills},
    {.name = "large strides", .print = print_large_strides},
    {.name = "short fills", .print = print_short_fills},
    {.name = "ownership and going back", .print = print_elements},
    {.name = "first place and steps", .print = print_sections},
    {.name = "growth", .print = print_growth},
    {.name = "checkpoints", .part = "checkpoints", .print_each = print_checkpoints},
    {.name = "lists of sizes", .part = "gen_block", .print = print_gen_block},
    {.name = "fills of grids", .part = "grids", .print_each = print_grids},
    {.name = "calls on grids", .part = "grids", .print = print_grid_calls},
};
enum { COUNT = sizeof TABLES / sizeof TABLES[0] };

static int asked_for(const char *word, int argc, char **argv)
{
    for (int i = 1; i < argc; i++)
        if (strcmp(argv[i], word) == 0)
            return 1;
    return 0;
}

/* One line that is rewritten, if a terminal shows nothing else. */
static void tell(int number, int count, const char *name, time_t begun, int each_input)
{
    int rewritten = isatty(STDERR_FILENO) && !isatty(STDOUT_FILENO) && !each_input;
    fprintf(stderr, "%smeasuring table %d of %d, %d s: %s%s", rewritten ? "\r\033[K" : "", number, count,
            (int)(time(NULL) - begun), name, rewritten && number < count ? "" : "\n");
}

int main(int argc, char **argv)
{
    int each_input = asked_for("each", argc, argv);
    int all = !asked_for("checkpoints", argc, argv) && !asked_for("gen_block", argc, argv) && !asked_for("grids", argc, argv);
    const table *wanted[COUNT];
    int count = 0;
    for (int i = 0; i < COUNT; i++)
        if (all || (TABLES[i].part && asked_for(TABLES[i].part, argc, argv)))
            wanted[count++] = &TABLES[i];
    time_t begun = time(NULL);
    for (int i = 0; i < count; i++) {
        tell(i + 1, count, wanted[i]->name, begun, each_input);
        if (wanted[i]->print)
            wanted[i]->print();
        else
            wanted[i]->print_each(each_input);
        fflush(stdout);
    }
    print_goals();
    return 0;
}

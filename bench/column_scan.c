/* Least positions by columns: the extended Euclid once, then one product for each column of a block. */
#include "lattice.h"
#include "peers.h"

/* how often a distance must be taken to move on by the common divisor, modulo the course */
typedef struct {
    int64_t common, times, repeat;
} solved;

static solved solve(int64_t distance, int64_t course)
{
    int64_t a = course, b = distance, x = 0, y = 1;
    while (b != 0) {
        int64_t quotient = a / b, rest = a - quotient * b, z = x - quotient * y;
        a = b;
        b = rest;
        x = y;
        y = z;
    }
    int64_t repeat = course / a;
    return (solved){a, (x % repeat + repeat) % repeat, repeat};
}

/* the least times, 1 or more, that move the column by low to high cells; 0 if none do */
static int64_t least_times(const solved *s, int64_t low, int64_t high)
{
    int64_t least = 0, first = (low + s->common - 1) / s->common * s->common;
    for (int64_t move = first; move <= high; move += s->common) {
        int64_t times = move / s->common * s->times % s->repeat;
        if (times == 0)
            times = s->repeat;
        if (least == 0 || times < least)
            least = times;
    }
    return least;
}

int64_t first_place_by_columns(const input *in)
{
    int64_t course = course_of(in), first = cell_of(in, 0);
    if (first / in->block % in->processors == in->processor)
        return 0;
    int64_t distance = (in->stride * in->step % course + course) % course;
    int64_t low = (in->processor * in->block - first % course + course) % course;
    solved s = solve(distance, course);
    return least_times(&s, low, low + in->block - 1);
}

int64_t steps_by_columns(const input *in, int64_t *return_cells)
{
    int64_t course = course_of(in), size = in->step < 0 ? -in->step : in->step, spread = in->stride * size;
    solved s = solve(spread % course, course);
    if (s.common >= in->block) {
        *return_cells = 0;
        return s.repeat * spread;
    }
    *return_cells = least_times(&s, course - in->block + 1, course - 1) * spread;
    return least_times(&s, 1, in->block - 1) * spread;
}

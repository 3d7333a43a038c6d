/* Steps by Euclid's algorithm. */
#include "lattice.h"

#include <stdlib.h>

int64_t gcd(int64_t a, int64_t b)
{
    return b == 0 ? a : gcd(b, a % b);
}

int64_t first_times(int64_t number, int64_t m, int64_t low, int64_t high)
{
    if (low == 0)
        return 0;
    if (number == 0)
        return -1;
    int64_t times = (low + number - 1) / number;
    if (times * number <= high)
        return times;
    int64_t from = (number - high % number) % number, to = (number - low % number) % number;
    int64_t turns = first_times(m % number, number, from, to);
    return turns < 0 ? -1 : (low + m * turns + number - 1) / number;
}

static step step_by(int64_t cells, int64_t column, int64_t period)
{
    int64_t rest = cells % period;
    if (rest < 0)
        rest += period;
    return (step){cells, column, (cells - rest) / period, rest};
}

steps find_steps(int64_t distance, int64_t course, int64_t block, int64_t period)
{
    int64_t size = llabs(distance), way = distance < 0 ? -1 : 1, common = gcd(size, course);
    if (common >= block) {
        step one = step_by(way * (course / common * size), 0, period);
        return (steps){one, one, one};
    }
    int64_t near = first_times(size % course, course, 1, block - 1) * size;
    int64_t far = first_times(size % course, course, course - block + 1, course - 1) * size;
    int64_t up = near % course, down = far % course - course;
    return (steps){
        step_by(way * near, way * up, period),
        step_by(way * far, way * down, period),
        step_by(way * (near + far), way * (up + down), period),
    };
}

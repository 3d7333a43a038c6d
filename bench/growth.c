/* What a call costs as blocks, processors, arrays and alignment strides grow. */
#include "fill_ways.h"
#include "summary.h"
#include "tables.h"

enum { OWNED, BACK, COUNTED, PLACE, SECTION_STEPS, CALLS };
enum { STRIDE = 3, LARGEST_STRIDE = 4096, STEP = 7 };

static volatile int64_t sink;

/* an element two thirds through the array, by turns */
static int64_t element_of_call(const input *in, int64_t call)
{
    return in->size / 3 * 2 - call % 64;
}

static void call_ownership(const void *context, int64_t call)
{
    const input *in = &((const job *)context)->in;
    sink = ownership(in, element_of_call(in, call)).address;
}

static void call_going_back(const void *context, int64_t call)
{
    const input *in = &((const job *)context)->in;
    sink = going_back(in, element_of_call(in, call) / in->processors);
}

static void call_local_count(const void *context, int64_t call)
{
    (void)call;
    sink = local_count(&((const job *)context)->in);
}

static void call_first_place(const void *context, int64_t call)
{
    (void)call;
    sink = first_place(&((const job *)context)->in);
}

static void call_steps(const void *context, int64_t call)
{
    (void)call;
    sink = section_steps(&((const job *)context)->in).cells;
}

static void print_growth_row(int64_t grown, machine m, int64_t stride, int64_t size)
{
    timed_call *const calls[CALLS] = {call_ownership, call_going_back, call_local_count, call_first_place, call_steps};
    timed_call *const fills[2] = {call_fill, build_and_walk};
    double times[CALLS], short_times[2];
    job whole = whole_list(section_of(m, stride, STEP, size));
    job one = short_lists(&whole, 1), ten = short_lists(&whole, 10);
    time_ways(&whole, calls, CALLS, times);
    time_ways(&one, fills, 2, short_times);
    printf("| %" PRId64 " |", grown);
    for (int call = 0; call < CALLS; call++)
        printf(" %.0f |", times[call]);
    printf(" %.0f | %.0f | %.0f |\n", short_times[0], time_one(&ten, call_fill), short_times[1]);
}

static void print_head(const char *grown, const char *rest)
{
    printf("\n## Growth with %s\n\n"
           "ns per call, s = %d, %s.\n\n"
           "| %s | ownership | going back | local count | first place | steps | fill of 1 | fill of 10 "
           "| table walk of 1, set-up counted |\n"
           "|---|---|---|---|---|---|---|---|---|\n",
           grown, STEP, rest, grown);
}

void print_growth(void)
{
    int64_t size = largest_size(STRIDE);
    print_head("k", "a = 3, p = 32, n = 715,827,883");
    for (int64_t block = 4; block <= 65536; block *= 4)
        print_growth_row(block, (machine){32, block}, STRIDE, size);
    print_head("p", "a = 3, k = 64, n = 715,827,883");
    for (int64_t processors = 1; processors <= 1024; processors *= 4)
        print_growth_row(processors, (machine){processors, 64}, STRIDE, size);
    print_head("n", "a = 3, p = 4, k = 64");
    for (int64_t n = 1000; n <= size; n *= 10)
        print_growth_row(n, (machine){4, 64}, STRIDE, n);
    print_head("a", "p = 32, k = 64, as many elements as a template has room for");
    for (int64_t power = 4; power <= LARGEST_STRIDE; power *= 4)
        print_growth_row(power - 1, (machine){32, 64}, power - 1, largest_size(power - 1));
    print_growth_row(LARGEST_STRIDE, (machine){32, 64}, LARGEST_STRIDE, largest_size(LARGEST_STRIDE));
}

/* Prints owners, addresses, counts and refusals, as a C program sees them, by both forms of each call. */
#include <inttypes.h>
#include <stddef.h>
#include <stdint.h>
#include <stdio.h>

#include "hpfaddr.h"
#include "same.h"

static hpf_owned ownership(hpf_mapping m, int64_t index)
{
    hpf_owned typed = hpf_ownership_of(m, index);
    hpf_owned plain = hpf_ownership(m.cells, m.processors, m.block, m.stride, m.offset, m.size, m.array_lower,
                                    m.template_lower, index);
    expect_same(&plain, &typed, sizeof plain);
    return plain;
}

static hpf_found going_back(hpf_mapping m, int64_t processor, int64_t address)
{
    hpf_found typed = hpf_going_back_of(m, processor, address);
    hpf_found plain = hpf_going_back(m.cells, m.processors, m.block, m.stride, m.offset, m.size, m.array_lower,
                                     m.template_lower, processor, address);
    expect_same(&plain, &typed, sizeof plain);
    return plain;
}

static hpf_counted local_count(hpf_mapping m, int64_t processor)
{
    hpf_counted typed = hpf_local_count_of(m, processor);
    hpf_counted plain = hpf_local_count(m.cells, m.processors, m.block, m.stride, m.offset, m.size, m.array_lower,
                                        m.template_lower, processor);
    expect_same(&plain, &typed, sizeof plain);
    return plain;
}

static void print_mapping(hpf_mapping m)
{
    printf("T %" PRId64 ", p %" PRId64 ", k %" PRId64 ", a %" PRId64 ", b %" PRId64 ", n %" PRId64 ", La %" PRId64
           ", Lt %" PRId64 "\n", m.cells, m.processors, m.block, m.stride, m.offset, m.size, m.array_lower,
           m.template_lower);
}

/* The addresses of every so many elements, processor by processor. */
static void print_addresses(hpf_mapping m, int64_t every)
{
    for (int64_t processor = 0; processor < m.processors; processor++) {
        printf("addresses on %" PRId64 ":", processor);
        for (int64_t index = m.array_lower; index < m.array_lower + m.size; index += every) {
            hpf_owned owned = ownership(m, index);
            if (owned.refusal == HPF_ACCEPTED && owned.processor == processor)
                printf(" %" PRId32, owned.address);
        }
        printf("\n");
    }
}

static void print_counts(hpf_mapping m)
{
    printf("elements:");
    for (int64_t processor = 0; processor < m.processors; processor++)
        printf(" %" PRId32, local_count(m, processor).elements);
    printf("\n");
}

/* One line for an element there and back. */
static void print_there_and_back(hpf_mapping m, int64_t index)
{
    hpf_owned owned = ownership(m, index);
    hpf_found found = going_back(m, owned.processor, owned.address);
    printf("element %" PRId64 ": processor %" PRId32 ", address %" PRId32 ", back %" PRId32 "\n",
           index, owned.processor, owned.address, found.index);
}

static void print_array(hpf_mapping m, int64_t every)
{
    print_mapping(m);
    print_addresses(m, every);
    print_counts(m);
    for (int64_t index = m.array_lower; index < m.array_lower + m.size; index += 10)
        print_there_and_back(m, index);
    print_there_and_back(m, m.array_lower + m.size - 1);
}

static void print_owned(const char *fault, hpf_owned owned)
{
    printf("%s: %" PRId32 " %" PRId32 " %" PRId32 "\n", fault, owned.refusal, owned.processor, owned.address);
}

static void print_found(const char *fault, hpf_found found)
{
    printf("%s: %" PRId32 " %" PRId32 "\n", fault, found.refusal, found.index);
}

static void print_counted(const char *fault, hpf_counted counted)
{
    printf("%s: %" PRId32 " %" PRId32 "\n", fault, counted.refusal, counted.elements);
}

static void print_refusals(void)
{
    const int64_t least = INT64_MIN, past = 2147483648;
    print_owned("no cells", ownership((hpf_mapping){0, 3, 4, 1, 0, 96, 0, 0}, 7));
    print_owned("1025 processors", ownership((hpf_mapping){96, 1025, 4, 1, 0, 96, 0, 0}, 7));
    print_owned("block of 65537", ownership((hpf_mapping){96, 3, 65537, 1, 0, 96, 0, 0}, 7));
    print_owned("stride of 4097", ownership((hpf_mapping){96, 3, 4, 4097, 0, 1, 0, 0}, 0));
    print_owned("offset -2147483648", ownership((hpf_mapping){96, 3, 4, 1, -past, 96, 0, 0}, 7));
    print_owned("-1 elements", ownership((hpf_mapping){96, 3, 4, 1, 0, -1, past, 0}, 7));
    print_owned("lower bound 2147483648", ownership((hpf_mapping){96, 3, 4, 1, 0, 0, past, 0}, 7));
    print_owned("last index 2147483648", ownership((hpf_mapping){96, 3, 4, 1, 0, 2, past - 1, 0}, 7));
    print_owned("last declared cell 2147483648", ownership((hpf_mapping){96, 3, 4, 1, 0, 0, 0, past - 95}, 7));
    print_owned("offset -1", ownership((hpf_mapping){96, 3, 4, 1, -1, 96, 0, 0}, 7));
    print_owned("97 elements", ownership((hpf_mapping){96, 3, 4, 1, 0, 97, 0, 0}, 7));
    print_owned("index 96", ownership((hpf_mapping){96, 3, 4, 1, 0, 96, 0, 0}, 96));
    print_owned("index 0 of 1 to 100", ownership((hpf_mapping){200, 4, 5, 2, -2, 100, 1, 0}, 0));
    print_found("processor 3", going_back((hpf_mapping){96, 3, 4, 1, 0, 96, 0, 0}, 3, 0));
    print_found("address 32", going_back((hpf_mapping){96, 3, 4, 1, 0, 96, 0, 0}, 0, 32));
    print_counted("processor -1", local_count((hpf_mapping){96, 3, 4, 1, 0, 96, 0, 0}, -1));
    print_counted("all at fault",
                  local_count((hpf_mapping){least, least, least, least, least, least, least, least}, least));
}

/* Each refusal by its name. */
static void print_names(void)
{
    const struct { const char *name; int number; } names[] = {
        {"accepted", HPF_ACCEPTED},
        {"cells", HPF_REFUSED_CELLS},
        {"processors", HPF_REFUSED_PROCESSORS},
        {"block", HPF_REFUSED_BLOCK},
        {"alignment", HPF_REFUSED_ALIGNMENT},
        {"size", HPF_REFUSED_SIZE},
        {"bounds", HPF_REFUSED_BOUNDS},
        {"processor number", HPF_REFUSED_PROCESSOR_NUMBER},
        {"element", HPF_REFUSED_ELEMENT},
    };
    for (size_t i = 0; i < sizeof names / sizeof names[0]; i++)
        printf("%s %d\n", names[i].name, names[i].number);
}

int main(void)
{
    const hpf_mapping dense = {.cells = 96, .processors = 3, .block = 4, .stride = 1, .size = 96};
    const hpf_mapping every_third_cell = {.cells = 144, .processors = 4, .block = 4, .stride = 3, .size = 48};
    /* A(1:100) aligned with T(2*j-2), and A(-3:20) with T(2*j+1) of a template from -5 on. */
    const hpf_mapping from_one = {200, 4, 5, 2, -2, 100, 1, 0};
    const hpf_mapping from_minus_three = {47, 3, 4, 2, 1, 24, -3, -5};
    const hpf_mapping largest = {2147483647, 1024, 65536, 1, 0, 2147483647, 0, 0};
    const hpf_mapping largest_stride = {2147483647, 1024, 64, 4096, 0, 524288, 0, 0};
    print_array(dense, 7);
    print_array(every_third_cell, 3);
    print_array(from_one, 7);
    print_array(from_minus_three, 2);
    print_mapping(largest);
    print_there_and_back(largest, 2147483646);
    print_mapping(largest_stride);
    print_there_and_back(largest_stride, 524287);
    print_refusals();
    print_names();
    return 0;
}

/* Stops a test program where a call on plain numbers and the same call on a mapping differ. */
#ifndef SAME_H
#define SAME_H

#include <stddef.h>
#include <stdio.h>
#include <stdlib.h>
#include <string.h>

static inline void expect_same(const void *plain, const void *typed, size_t bytes)
{
    if (bytes > 0 && memcmp(plain, typed, bytes) != 0) {
        fprintf(stderr, "the two forms of a call differ\n");
        exit(EXIT_FAILURE);
    }
}

#endif

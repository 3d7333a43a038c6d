/* Prints what a fill returned and wrote. */
#ifndef FILLED_H
#define FILLED_H

#include <inttypes.h>
#include <stddef.h>
#include <stdint.h>
#include <stdio.h>

#include "hpfaddr.h"

enum { ENTRY_BYTES = 4, UNTOUCHED = 0x5a };

/* The first addresses of a list. */
static inline void print_addresses(const uint8_t *list, int32_t entries)
{
    for (int32_t i = 0; i < entries; i++) {
        const uint8_t *entry = list + ENTRY_BYTES * i;
        uint32_t address = entry[0] | (uint32_t)entry[1] << 8 | (uint32_t)entry[2] << 16 | (uint32_t)entry[3] << 24;
        printf(" %" PRIu32, address);
    }
}

static inline void print_filled(const char *name, hpf_filled filled)
{
    printf("%s: %" PRId32 " %" PRId32 " %" PRId32 " %" PRId32, name, filled.refusal, filled.entries, filled.tries,
           filled.place);
}

/* A fill of a list that begins at the second byte of memory: how many bytes it wrote there, and its addresses. */
static inline void print_written(const char *name, hpf_filled filled, const uint8_t *memory, size_t bytes)
{
    size_t written = 0;
    for (size_t i = 0; i < bytes; i++)
        written += memory[i] != UNTOUCHED;
    print_filled(name, filled);
    printf(", %zu bytes written:", written);
    print_addresses(memory + 1, filled.entries);
    printf("\n");
}

#endif

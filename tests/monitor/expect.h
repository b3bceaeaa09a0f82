/* What a call answered and left, held against what it must. Each difference prints a line. */
#ifndef EXPECT_H
#define EXPECT_H

#include "lent.h"

#include <stdbool.h>
#include <stddef.h>
#include <stdint.h>

extern int differences; /* so far */

void expect_number(const char *name, const char *what, uint32_t got, uint32_t wanted);

/* Every byte that was lent, and the guards. Where `wanted` is null each byte must be as it was lent. */
void expect_bytes(const char *name, const char *what, const struct lent *l, const uint8_t *wanted);

/* A lent number of 2 or 4 bytes: written, or as it was lent. */
void expect_lent(const char *name, const char *what, const struct lent *l, bool written, uint32_t wanted);

/* Bytes that differ from address to address, so that a byte stored, moved or cleared is seen. */
void fill_background(uint8_t *memory, size_t length);

/* Calls a test with each filler, with guard bytes and without. */
void with_each_lending(void (*test)(size_t guard));

/* Checks that are counted as one. Those that lend are made in each way of lending, the others once. */
struct group {
    const char *name;
    void (*lends)(size_t guard);
    void (*once)(void);
};

/* Makes each group's checks, prints a line for each group and last their count; answers the exit status. */
int check_groups(const struct group *groups, size_t count);

#endif

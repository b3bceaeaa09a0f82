/* A buffer to lend: in a block of its own, with guard bytes on both sides or none. */
#ifndef LENT_H
#define LENT_H

#include <stdbool.h>
#include <stddef.h>
#include <stdint.h>

/* What a lent number holds before a call, in each byte. The tests are made with two: a number that a call writes cannot
 * have both, and one that it leaves has each. */
#define FILLERS 2
extern const uint8_t fillers[FILLERS];
extern uint8_t filler; /* the one in use */

struct lent {
    uint8_t *block;
    uint8_t *bytes; /* what is lent */
    size_t length;
    size_t guard; /* on each side. With 0 a memory checker sees every access past the length */
};

/* The buffer holds `content`, or where that is null the filler. */
struct lent lend(const uint8_t *content, size_t length, size_t guard);

bool guards_kept(const struct lent *l);

/* The index of the first byte that differs from `wanted`, or where that is null from the filler; or the length. */
size_t first_difference(const struct lent *l, const uint8_t *wanted);

void take_back(struct lent *l);

#endif

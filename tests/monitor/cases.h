/* Calls with what they must answer, by hand from the manual and the specification. */
#ifndef CASES_H
#define CASES_H

#include <stddef.h>
#include <stdint.h>

struct registers {
    uint8_t a, b;
    uint16_t x, y, sp, pc;
    uint8_t flags;
    uint16_t lowest; /* the smallest SP after any instruction */
};

/* Some bytes from an address on; the address wraps. */
struct bytes {
    uint16_t at;
    size_t count;
    uint8_t byte[12];
};

/*
 * Memory that is not named in `given` or `written` holds a background that no call may change. `cycles` and `place`
 * count where the outcome writes them.
 */
struct call {
    const char *name;
    struct registers before;
    struct bytes given[3];
    uint16_t home;   /* of a run; $0000 where nothing is said */
    uint32_t budget; /* of a run */
    uint32_t outcome;
    uint32_t cycles;
    uint16_t place;
    struct registers after;
    struct bytes written[2];
};

extern const struct call steps[];
extern const size_t step_count;

extern const struct call runs[];
extern const size_t run_count;

#endif

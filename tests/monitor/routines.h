/* Routine P of the specification, whole and damaged: once for each cause for which a routine is refused. Each of them
 * may have a name at each mark. */
#ifndef ROUTINES_H
#define ROUTINES_H

#include "jugrond.h"

#include "names.h"

#include <stdbool.h>
#include <stddef.h>
#include <stdint.h>

#define P_IMAGE_BYTES 11
#define P_TICKET_BYTES 89
#define HOME_BYTES 3
#define P_MARKS 6
#define P_MOST_TICKET_BYTES (P_TICKET_BYTES + HOME_BYTES + P_MARKS * NAME_BYTES + 1)

/* One byte that differs from P's. */
struct edit {
    size_t at;
    uint8_t byte;
};

/* What a routine is judged to be, by hand from the specification. Of an accepted one `slot` holds every answer. */
struct routine {
    const char *name;
    uint32_t outcome, place;
    size_t ticket_length, image_length;
    struct edit ticket[6], image; /* one at 0 is none */
    uint8_t home[HOME_BYTES];     /* a command that is put in after P's entry; all zero is none */
    bool named;                   /* a name at each mark */
    uint8_t slot[JUGROND_SLOT_BYTES];
};

extern const struct routine routines[]; /* the first is P, whole */
extern const size_t routine_count;

/* The routine's bytes: as many as its lengths say, and a byte past the end. */
void make_ticket(const struct routine *r, uint8_t bytes[P_MOST_TICKET_BYTES]);
void make_image(const struct routine *r, uint8_t bytes[P_IMAGE_BYTES + 1]);

/* The routine with a name at each mark, and judged to be the same, but that an offset counts the names before it. */
struct routine named(const struct routine *r);

/* Calls a test with each routine as it is and, where its ticket has marks, named. */
void for_each_routine(void (*test)(const struct routine *, size_t guard), size_t guard);

/* A number in a slot, high byte first. */
uint32_t slot_number(const uint8_t *slot, size_t at, size_t bytes);

#endif

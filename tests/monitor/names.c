/* See names.h. */
#include "names.h"

#include "judged.h"

#include <stdbool.h>
#include <string.h>

enum { MARK = 5, NAME = 6, HOME = 7 };

#define NOWHERE SIZE_MAX

size_t marks_from(const uint8_t *ticket, size_t length)
{
    return length > HEADER_BYTES && ticket[HEADER_BYTES] == HOME ? HEADER_BYTES + HOME_BYTES : HEADER_BYTES;
}

/* Where the next name goes: at the end of the first mark without one, from the mark or name at an offset on. */
static size_t next_name(const uint8_t *ticket, size_t length, size_t at)
{
    while (at + MARK_BYTES <= length && (ticket[at] == MARK || ticket[at] == NAME)) {
        bool mark = ticket[at] == MARK;

        at += MARK_BYTES;
        if (mark && (at == length || ticket[at] != NAME))
            return at;
    }
    return NOWHERE;
}

static size_t first_name(const uint8_t *ticket, size_t length)
{
    return next_name(ticket, length, marks_from(ticket, length));
}

/* Printable bytes, others at each offset. */
static void put_name(uint8_t *name, const uint8_t *mark, size_t offset)
{
    name[0] = NAME;
    memcpy(name + 1, mark + 1, 2);
    for (size_t i = 3; i < NAME_BYTES; i++)
        name[i] = (uint8_t)(0x20 + (offset + i) % 95);
}

size_t with_names(const uint8_t *ticket, size_t length, uint8_t *named)
{
    size_t from = 0, put = 0;

    for (size_t at = first_name(ticket, length); at != NOWHERE; at = next_name(ticket, length, at)) {
        memcpy(named + from + put, ticket + from, at - from);
        put_name(named + at + put, ticket + at - MARK_BYTES, at);
        put += NAME_BYTES;
        from = at;
    }
    memcpy(named + from + put, ticket + from, length - from);
    return length + put;
}

uint32_t place_with_names(const uint8_t *ticket, size_t length, uint32_t outcome, uint32_t place)
{
    bool offset = (outcome >= 1 && outcome <= 8) || outcome == 29;
    uint32_t moved = place;

    for (size_t at = first_name(ticket, length); offset && at <= place; at = next_name(ticket, length, at))
        moved += NAME_BYTES;
    return moved;
}

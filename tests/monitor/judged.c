/* See judged.h. */
#include "judged.h"

#include <inttypes.h>
#include <stdio.h>

static uint8_t *put(uint8_t *at, uint32_t value, int bytes)
{
    for (int i = bytes - 1; i >= 0; i--)
        *at++ = (uint8_t)(value >> (8 * i));
    return at;
}

static uint8_t *put_window(uint8_t *at, uint8_t command, struct window w)
{
    return put(put(put(at, command, 1), w.start, 2), w.length, 2);
}

size_t ticket_of(const struct judged *r, uint8_t *bytes)
{
    uint8_t *at = put_window(bytes, 1, r->code);

    at = put_window(at, 2, r->data);
    at = put_window(at, 3, r->stack);
    at = put(put(put(at, 4, 1), r->entry, 2), r->limit, 4);
    if (r->says_home)
        at = put(put(at, 7, 1), r->home, 2);
    for (size_t i = 0; i < r->count; i++) {
        const struct mark *m = &r->marks[i];

        at = put(put(put(put(put(at, 5, 1), m->address, 2), m->cost, 4), m->depth, 2), m->need, 2);
    }
    at = put(at, 0, 1);
    return (size_t)(at - bytes);
}

const struct answer LENT = {.outcome = 0xa5a5a5a5,
                            .cost = 0xb6b6b6b6,
                            .place = 0xc7c7c7c7,
                            .entry = 0xd8d8,
                            .home = 0xfafa,
                            .stack = 0xe9e9};

struct answer answer_of(verdict_function *verdict, const uint8_t *ticket, size_t ticket_length, const uint8_t *image,
                        size_t image_length)
{
    struct answer a = LENT;

    a.outcome = verdict(ticket, ticket_length, image, image_length, &a.entry, &a.home, &a.cost, &a.stack, &a.place);
    return a;
}

int same(const struct answer *a, const struct answer *b)
{
    return a->outcome == b->outcome && a->cost == b->cost && a->place == b->place && a->entry == b->entry &&
           a->home == b->home && a->stack == b->stack;
}

void print_answer(const char *name, const struct answer *a)
{
    printf("%s: outcome %" PRIu32 " at %" PRIu32 ", entry %" PRIu16 ", home %" PRIu16 ", cost %" PRIu32
           ", stack %" PRIu16 "\n",
           name, a->outcome, a->place, a->entry, a->home, a->cost, a->stack);
}

/*
 * A null pointer with length 0, for each buffer of each call: it counts as a buffer of no bytes, and what else was lent
 * stays where the call refuses. Prints a line for each difference and for each group, and last the groups' count; the
 * exit status tells.
 */
#include "jugrond.h"

#include "expect.h"
#include "lent.h"
#include "routines.h"

#include <stdio.h>

static uint8_t ticket[P_MOST_TICKET_BYTES], image[P_IMAGE_BYTES + 1], memory[JUGROND_MEMORY_BYTES];
static const uint8_t registers[JUGROND_REGISTER_BYTES] = {1, 2, 3, 4, 5, 6, 7, 8, 9, 10, 11, 12, 13};
static const uint8_t filled[JUGROND_SLOT_BYTES] = {9, 8, 7, 6, 5, 4, 3, 2, 1};

static void make(void)
{
    make_ticket(&routines[0], ticket);
    make_image(&routines[0], image);
    fill_background(memory, sizeof memory);
}

/* The place of a refusal, which is written. */
static uint32_t *place_of(struct lent *place)
{
    return (uint32_t *)(void *)place->bytes;
}

/* Home, which a refusal leaves. */
static uint16_t *home_of(struct lent *home)
{
    return (uint16_t *)(void *)home->bytes;
}

static void check_judging(size_t guard)
{
    struct lent t, i, s = lend(filled, sizeof filled, guard), place = lend(NULL, 4, guard);
    struct lent entry = lend(NULL, 2, guard), home = lend(NULL, 2, guard), cost = lend(NULL, 4, guard);
    struct lent stack = lend(NULL, 2, guard);
    uint16_t *e = (uint16_t *)(void *)entry.bytes, *h = home_of(&home), *k = (uint16_t *)(void *)stack.bytes;
    uint32_t *c = (uint32_t *)(void *)cost.bytes, *p = place_of(&place);

    make();
    t = lend(ticket, P_TICKET_BYTES, guard);
    i = lend(image, P_IMAGE_BYTES, guard);
    expect_number("verdict", "no ticket", jugrond_verdict(NULL, 0, i.bytes, i.length, e, h, c, k, p),
                  JUGROND_TICKET_CUT);
    expect_number("verdict", "no image", jugrond_verdict(t.bytes, t.length, NULL, 0, e, h, c, k, p),
                  JUGROND_BAD_IMAGE);
    expect_number("verdict", "neither", jugrond_verdict(NULL, 0, NULL, 0, e, h, c, k, p), JUGROND_TICKET_CUT);
    expect_number("certify", "no ticket", jugrond_certify(NULL, 0, i.bytes, i.length, s.bytes, s.length, p),
                  JUGROND_TICKET_CUT);
    expect_number("certify", "no image", jugrond_certify(t.bytes, t.length, NULL, 0, s.bytes, s.length, p),
                  JUGROND_BAD_IMAGE);
    expect_number("certify", "no slot", jugrond_certify(t.bytes, t.length, i.bytes, i.length, NULL, 0, p),
                  JUGROND_BAD_LENGTH);
    expect_number("certify", "nothing", jugrond_certify(NULL, 0, NULL, 0, NULL, 0, p), JUGROND_BAD_LENGTH);
    expect_bytes("judging", "ticket", &t, ticket);
    expect_bytes("judging", "image", &i, image);
    expect_bytes("judging", "slot", &s, filled);
    expect_lent("judging", "entry", &entry, false, 0);
    expect_lent("judging", "home", &home, false, 0);
    expect_lent("judging", "cost", &cost, false, 0);
    expect_lent("judging", "stack", &stack, false, 0);
    expect_lent("judging", "place", &place, true, 0);
    take_back(&t);
    take_back(&i);
    take_back(&s);
    take_back(&entry);
    take_back(&home);
    take_back(&cost);
    take_back(&stack);
    take_back(&place);
}

/* What a start answers where one of its buffers is missing, and a start from a slot. */
static const struct {
    const char *start, *from_slot;
    uint32_t outcome, slot_outcome;
} lacking[] = {
    {"no ticket", "no slot", JUGROND_TICKET_CUT, JUGROND_BAD_LENGTH},
    {"no image", "no image", JUGROND_BAD_IMAGE, JUGROND_BAD_IMAGE},
    {"no registers", "no registers", JUGROND_BAD_LENGTH, JUGROND_BAD_LENGTH},
    {"no memory", "no memory", JUGROND_BAD_LENGTH, JUGROND_BAD_LENGTH},
};

static void check_starting(size_t guard)
{
    static const uint8_t zeros[JUGROND_SLOT_BYTES];
    static const uint8_t started[] = {1, 2, 3, 4, 5, 6, 0xff, 0xfd, 0, 0, 11, 0xff, 0xfd}; /* from a slot of zeros */
    struct lent t, i, m, r = lend(registers, sizeof registers, guard), place = lend(NULL, 4, guard);
    struct lent s = lend(filled, sizeof filled, guard), z = lend(zeros, sizeof zeros, guard);
    struct lent home = lend(NULL, 2, guard);
    uint16_t *h = home_of(&home);
    uint32_t *p = place_of(&place);

    make();
    t = lend(ticket, P_TICKET_BYTES, guard);
    i = lend(image, P_IMAGE_BYTES, guard);
    m = lend(memory, sizeof memory, guard);
    for (size_t k = 0; k < 4; k++) {
        struct lent b[] = {t, i, r, m}, c[] = {s, i, r, m};

        b[k].bytes = c[k].bytes = NULL;
        b[k].length = c[k].length = 0;
        expect_number("start", lacking[k].start,
                      jugrond_start(b[0].bytes, b[0].length, b[1].bytes, b[1].length, b[2].bytes, b[2].length,
                                    b[3].bytes, b[3].length, h, p),
                      lacking[k].outcome);
        expect_number("start from a slot", lacking[k].from_slot,
                      jugrond_start_certified(c[0].bytes, c[0].length, c[1].bytes, c[1].length, c[2].bytes,
                                              c[2].length, c[3].bytes, c[3].length, h, p),
                      lacking[k].slot_outcome);
    }
    expect_number("start", "nothing", jugrond_start(NULL, 0, NULL, 0, NULL, 0, NULL, 0, h, p), JUGROND_BAD_LENGTH);
    expect_bytes("starting", "ticket", &t, ticket);
    expect_bytes("starting", "image", &i, image);
    expect_bytes("starting", "slot", &s, filled);
    expect_bytes("starting", "registers", &r, registers);
    expect_bytes("starting", "memory", &m, memory);
    expect_lent("starting", "home", &home, false, 0);
    expect_lent("starting", "place", &place, true, 0);
    take_back(&place);

    /* an image of no bytes is as long as the code window of a slot of zeros: nothing of it is stored */
    place = lend(NULL, 4, guard);
    expect_number("start from a slot of zeros", "no image",
                  jugrond_start_certified(z.bytes, z.length, NULL, 0, r.bytes, r.length, m.bytes, m.length, h,
                                          place_of(&place)),
                  JUGROND_ACCEPTED);
    memory[JUGROND_MEMORY_BYTES - 2] = memory[JUGROND_MEMORY_BYTES - 1] = 0;
    expect_bytes("starting", "registers after a slot of zeros", &r, started);
    expect_bytes("starting", "memory after a slot of zeros", &m, memory);
    expect_lent("starting", "home after a slot of zeros", &home, true, 0x0000);
    expect_lent("starting", "place after a slot of zeros", &place, false, 0);
    take_back(&t);
    take_back(&i);
    take_back(&m);
    take_back(&r);
    take_back(&s);
    take_back(&z);
    take_back(&home);
    take_back(&place);
}

static void check_executing(size_t guard)
{
    struct lent r = lend(registers, sizeof registers, guard), m, cycles = lend(NULL, 4, guard);
    struct lent place = lend(NULL, 2, guard);
    uint32_t *c = (uint32_t *)(void *)cycles.bytes;
    uint16_t *p = (uint16_t *)(void *)place.bytes;

    make();
    m = lend(memory, sizeof memory, guard);
    expect_number("reset", "no registers", jugrond_reset(NULL, 0), JUGROND_BAD_LENGTH);
    expect_number("step", "no registers", jugrond_step(NULL, 0, m.bytes, m.length, c, p), JUGROND_BAD_LENGTH);
    expect_number("step", "no memory", jugrond_step(r.bytes, r.length, NULL, 0, c, p), JUGROND_BAD_LENGTH);
    expect_number("step", "neither", jugrond_step(NULL, 0, NULL, 0, c, p), JUGROND_BAD_LENGTH);
    expect_number("run", "no registers", jugrond_run(NULL, 0, m.bytes, m.length, 0, 1000, c, p), JUGROND_BAD_LENGTH);
    expect_number("run", "no memory", jugrond_run(r.bytes, r.length, NULL, 0, 0, 1000, c, p), JUGROND_BAD_LENGTH);
    expect_number("run", "neither", jugrond_run(NULL, 0, NULL, 0, 0, 1000, c, p), JUGROND_BAD_LENGTH);
    expect_bytes("executing", "registers", &r, registers);
    expect_bytes("executing", "memory", &m, memory);
    expect_lent("executing", "cycles", &cycles, false, 0);
    expect_lent("executing", "place", &place, true, 0);
    take_back(&r);
    take_back(&m);
    take_back(&cycles);
    take_back(&place);
}

int main(void)
{
    static const struct group groups[] = {
        {"judging", check_judging, NULL},
        {"starting", check_starting, NULL},
        {"executing", check_executing, NULL},
    };

    return check_groups(groups, sizeof groups / sizeof groups[0]);
}

/*
 * Judges and starts routine P of the specification, whole, with homes and damaged in each way, each without names and
 * with a name at each mark, through jugrond_verdict and jugrond_start, and runs what was started. Looks at every byte
 * and number that was lent and at guard bytes around them: what a call does not answer must be as it was lent. Prints a
 * line for each difference and last the count; the exit status tells.
 */
#include "jugrond.h"

#include "expect.h"
#include "lent.h"
#include "routines.h"

#include <stdbool.h>
#include <stdio.h>
#include <stdlib.h>
#include <string.h>

static int passed, failed;

static void count(void)
{
    if (differences == 0)
        passed++;
    else
        failed++;
    differences = 0;
}

static uint8_t ticket[P_MOST_TICKET_BYTES], image[P_IMAGE_BYTES + 1];

static void check_verdict(const struct routine *c, size_t guard)
{
    bool accepted = c->outcome == JUGROND_ACCEPTED;
    struct lent t, i;
    struct lent entry = lend(NULL, 2, guard), home = lend(NULL, 2, guard), cost = lend(NULL, 4, guard),
                stack = lend(NULL, 2, guard), place = lend(NULL, 4, guard);

    make_ticket(c, ticket);
    make_image(c, image);
    t = lend(ticket, c->ticket_length, guard);
    i = lend(image, c->image_length, guard);
    expect_number(c->name, "outcome",
                  jugrond_verdict(t.bytes, t.length, i.bytes, i.length, (uint16_t *)(void *)entry.bytes,
                                  (uint16_t *)(void *)home.bytes, (uint32_t *)(void *)cost.bytes,
                                  (uint16_t *)(void *)stack.bytes, (uint32_t *)(void *)place.bytes),
                  c->outcome);
    expect_bytes(c->name, "ticket", &t, ticket);
    expect_bytes(c->name, "image", &i, image);
    expect_lent(c->name, "entry", &entry, accepted, slot_number(c->slot, JUGROND_SLOT_ENTRY, 2));
    expect_lent(c->name, "home", &home, accepted, slot_number(c->slot, JUGROND_SLOT_HOME, 2));
    expect_lent(c->name, "cost", &cost, accepted, slot_number(c->slot, JUGROND_SLOT_COST, 4));
    expect_lent(c->name, "stack", &stack, accepted, slot_number(c->slot, JUGROND_SLOT_STACK_BYTES, 2));
    expect_lent(c->name, "place", &place, !accepted, c->place);
    take_back(&t);
    take_back(&i);
    take_back(&entry);
    take_back(&home);
    take_back(&cost);
    take_back(&stack);
    take_back(&place);
    count();
}

/* The lowest SP is below the SP of a start. */
static const uint8_t given[JUGROND_REGISTER_BYTES + 1] = {7,    8,    0x12, 0x34, 0x56, 0x78, 0x9a,
                                                          0xbc, 0xde, 0xf0, 0x31, 0x00, 0x99, 0x66};

static uint8_t memory[JUGROND_MEMORY_BYTES + 1], wanted[JUGROND_MEMORY_BYTES + 1];

/* The start of the specification: home's high byte below the stack window's last, its low byte there. */
static void start_wanted(const struct routine *c, uint8_t *registers)
{
    uint16_t top = (uint16_t)(slot_number(c->slot, JUGROND_SLOT_STACK, 2) +
                              slot_number(c->slot, JUGROND_SLOT_STACK_LENGTH, 2) - 1);

    memcpy(wanted + 0x8000, image, P_IMAGE_BYTES);
    wanted[top - 1] = c->slot[JUGROND_SLOT_HOME];
    wanted[top] = c->slot[JUGROND_SLOT_HOME + 1];
    registers[JUGROND_SP] = registers[JUGROND_LOWEST_SP] = (uint8_t)((top - 2) >> 8);
    registers[JUGROND_SP + 1] = registers[JUGROND_LOWEST_SP + 1] = (uint8_t)(top - 2);
    memcpy(registers + JUGROND_PC, c->slot + JUGROND_SLOT_ENTRY, 2);
}

/* What a start answers, and what it leaves: everything as it was, or the start. Lengths that are refused are looked at
 * first. */
static void check_start(const struct routine *c, size_t registers_length, size_t memory_length, size_t guard)
{
    bool sized = registers_length == JUGROND_REGISTER_BYTES && memory_length == JUGROND_MEMORY_BYTES;
    uint32_t outcome = sized ? c->outcome : JUGROND_BAD_LENGTH, at = sized ? c->place : 0;
    struct lent t, i, r, m, home = lend(NULL, 2, guard), place = lend(NULL, 4, guard);
    uint8_t registers[sizeof given];

    make_ticket(c, ticket);
    make_image(c, image);
    memcpy(registers, given, sizeof given);
    memcpy(wanted, memory, sizeof wanted);
    t = lend(ticket, c->ticket_length, guard);
    i = lend(image, c->image_length, guard);
    r = lend(registers, registers_length, guard);
    m = lend(memory, memory_length, guard);
    if (outcome == JUGROND_ACCEPTED)
        start_wanted(c, registers);
    expect_number(c->name, "outcome of a start",
                  jugrond_start(t.bytes, t.length, i.bytes, i.length, r.bytes, r.length, m.bytes, m.length,
                                (uint16_t *)(void *)home.bytes, (uint32_t *)(void *)place.bytes),
                  outcome);
    expect_bytes(c->name, "ticket", &t, ticket);
    expect_bytes(c->name, "image", &i, image);
    expect_bytes(c->name, "registers", &r, registers);
    expect_bytes(c->name, "memory", &m, wanted);
    expect_lent(c->name, "home", &home, outcome == JUGROND_ACCEPTED, slot_number(c->slot, JUGROND_SLOT_HOME, 2));
    expect_lent(c->name, "place", &place, outcome != JUGROND_ACCEPTED, at);
    take_back(&t);
    take_back(&i);
    take_back(&r);
    take_back(&m);
    take_back(&home);
    take_back(&place);
    count();
}

static void check_routine(const struct routine *c, size_t guard)
{
    check_verdict(c, guard);
    check_start(c, JUGROND_REGISTER_BYTES, JUGROND_MEMORY_BYTES, guard);
    check_start(c, 0, JUGROND_MEMORY_BYTES, guard);
    check_start(c, 11, JUGROND_MEMORY_BYTES, guard);
    check_start(c, 12, JUGROND_MEMORY_BYTES, guard);
    check_start(c, 14, JUGROND_MEMORY_BYTES, guard);
    check_start(c, JUGROND_REGISTER_BYTES, 0, guard);
    check_start(c, JUGROND_REGISTER_BYTES, 65535, guard);
    check_start(c, JUGROND_REGISTER_BYTES, 65537, guard);
}

static void check_all(size_t guard)
{
    for_each_routine(check_routine, guard);
}

/* P as it is, or with a home: the same in all else. */
static struct routine p_with(const uint8_t *home)
{
    struct routine r = routines[0];

    if (home != NULL) {
        r.ticket_length += HOME_BYTES;
        r.home[0] = 7;
        memcpy(r.home + 1, home, 2);
    }
    return r;
}

/* The two bytes of home: at T - 1, $01F3, the high one, at T the low one; zeros where the ticket says none. */
static void expect_home_at_t(const char *when, const uint8_t *used, const uint8_t *home)
{
    expect_number("way", when, (uint32_t)(used[0x01f3] << 8 | used[0x01f4]),
                  home == NULL ? 0x0000 : (uint32_t)(home[0] << 8 | home[1]));
}

/* Verdict, start and run of P in turn, with a home or none. The lowest SP is that of the call within P, $01EF. */
static void check_way_of(const struct routine *c, const uint8_t *says, uint32_t budget, uint32_t outcome,
                         uint32_t spent, const char *sp_pc)
{
    static uint8_t used[JUGROND_MEMORY_BYTES];
    uint8_t registers[JUGROND_REGISTER_BYTES], expected[JUGROND_REGISTER_BYTES];
    uint32_t cost = 0, cycles = 0, place = 0;
    uint16_t entry = 0, judged = 0x5555, home = 0xaaaa, stack = 0, pc = 0;

    make_ticket(c, ticket);
    make_image(c, image);
    memcpy(used, memory, sizeof used);
    memcpy(registers, given, sizeof registers);
    memcpy(expected, given, sizeof expected);
    memcpy(expected + JUGROND_SP, sp_pc, 4);
    memcpy(expected + JUGROND_LOWEST_SP, "\x01\xef", 2);
    expect_number("way", "verdict",
                  jugrond_verdict(ticket, c->ticket_length, image, P_IMAGE_BYTES, &entry, &judged, &cost, &stack,
                                  &place),
                  JUGROND_ACCEPTED);
    expect_number("way", "entry", entry, 0x8000);
    expect_number("way", "certified cycles", cost, 26);
    expect_number("way", "stack bytes", stack, 5);
    expect_number("way", "start",
                  jugrond_start(ticket, c->ticket_length, image, P_IMAGE_BYTES, registers, sizeof registers, used,
                                sizeof used, &home, &place),
                  JUGROND_ACCEPTED);
    expect_number("way", "home of the verdict", judged, says == NULL ? 0x0000 : (uint32_t)(says[0] << 8 | says[1]));
    expect_number("way", "home of the start", home, judged);
    expect_home_at_t("home in memory at the start", used, says);
    expect_number("way", "run",
                  jugrond_run(registers, sizeof registers, used, sizeof used, home, budget, &cycles, &pc), outcome);
    expect_number("way", "cycles", cycles, spent);
    expect_number("way", "registers", memcmp(registers, expected, sizeof expected) == 0, 1);
    expect_number("way", "byte stored", used[0x0040], 7);
    expect_home_at_t("home in memory after the run", used, says);
    count();
}

/* Without names and with them. */
static void check_way(const uint8_t *says, uint32_t budget, uint32_t outcome, uint32_t spent, const char *sp_pc)
{
    struct routine c = p_with(says), n = named(&c);

    check_way_of(&c, says, budget, outcome, spent, sp_pc);
    check_way_of(&n, says, budget, outcome, spent, sp_pc);
}

/* P comes home to where its ticket says, with SP at T, and with a cycle less it stops where P without home does. */
static void check_homes(void)
{
    static const char *const homes[] = {"\x00\x00", "\xff\xff", "\x12\x34", "\x00\x40", /* in the data window */
                                        "\x01\xf0", "\x01\xf3", "\x01\xf4",             /* in the stack window */
                                        "\x7f\xff", "\x80\x0b"};                         /* beside the code */

    for (size_t i = 0; i < sizeof homes / sizeof homes[0]; i++) {
        char sp_pc[] = {0x01, '\xf4', homes[i][0], homes[i][1]};

        check_way((const uint8_t *)homes[i], 26, JUGROND_HOME, 26, sp_pc);
        check_way((const uint8_t *)homes[i], UINT32_MAX, JUGROND_HOME, 26, sp_pc);
        check_way((const uint8_t *)homes[i], 25, JUGROND_SPENT, 21, "\x01\xf2\x80\x05");
    }
}

/* A routine that came home stays there: another run with its home answers home at once. With another home the run goes
 * on from $0000, where a NOP and WAI stand here. */
static void check_after_home(void)
{
    static uint8_t used[JUGROND_MEMORY_BYTES];
    uint8_t registers[JUGROND_REGISTER_BYTES];
    uint32_t cycles = 0, place = 0;
    uint16_t home = 0xaaaa, pc = 0;

    make_ticket(&routines[0], ticket);
    make_image(&routines[0], image);
    memcpy(used, memory, sizeof used);
    memcpy(registers, given, sizeof registers);
    memcpy(used, "\x01\x3e", 2);
    expect_number("after home", "start",
                  jugrond_start(ticket, P_TICKET_BYTES, image, P_IMAGE_BYTES, registers, sizeof registers, used,
                                sizeof used, &home, &place),
                  JUGROND_ACCEPTED);
    expect_number("after home", "run",
                  jugrond_run(registers, sizeof registers, used, sizeof used, home, 26, &cycles, &pc), JUGROND_HOME);
    expect_number("after home", "cycles", cycles, 26);
    expect_number("after home", "again",
                  jugrond_run(registers, sizeof registers, used, sizeof used, home, 26, &cycles, &pc), JUGROND_HOME);
    expect_number("after home", "cycles again", cycles, 0);
    expect_number("after home", "with home $FFFF",
                  jugrond_run(registers, sizeof registers, used, sizeof used, 0xffff, 26, &cycles, &pc),
                  JUGROND_WAITS);
    expect_number("after home", "cycles of the NOP", cycles, 2);
    expect_number("after home", "place of WAI", pc, 0x0001);
    count();
}

/* P's stack window ends at $01F4: after a start SP and the lowest SP are $01F2, whatever was lent. */
static void check_lowest(const char *before)
{
    static uint8_t used[JUGROND_MEMORY_BYTES];
    uint8_t registers[JUGROND_REGISTER_BYTES];
    uint32_t place = 0;
    uint16_t home = 0;

    make_ticket(&routines[0], ticket);
    make_image(&routines[0], image);
    memcpy(registers, given, sizeof registers);
    memcpy(registers + JUGROND_LOWEST_SP, before, 2);
    expect_number("lowest SP", "start",
                  jugrond_start(ticket, P_TICKET_BYTES, image, P_IMAGE_BYTES, registers, sizeof registers, used,
                                sizeof used, &home, &place),
                  JUGROND_ACCEPTED);
    expect_number("lowest SP", "SP is $01F2", memcmp(registers + JUGROND_SP, "\x01\xf2", 2) == 0, 1);
    expect_number("lowest SP", "the lowest SP is $01F2",
                  memcmp(registers + JUGROND_LOWEST_SP, "\x01\xf2", 2) == 0, 1);
    count();
}

int main(void)
{
    fill_background(memory, sizeof memory);
    with_each_lending(check_all);
    check_way(NULL, 26, JUGROND_HOME, 26, "\x01\xf4\x00\x00");
    check_way(NULL, UINT32_MAX, JUGROND_HOME, 26, "\x01\xf4\x00\x00");
    check_way(NULL, 25, JUGROND_SPENT, 21, "\x01\xf2\x80\x05");
    check_homes();
    check_after_home();
    check_lowest("\x00\x00");
    check_lowest("\x01\xf1");
    check_lowest("\x01\xf3");
    check_lowest("\xff\xff");
    printf("%d passed, %d failed\n", passed, failed);
    return failed == 0 ? EXIT_SUCCESS : EXIT_FAILURE;
}

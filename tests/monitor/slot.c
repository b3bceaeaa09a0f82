/*
 * Judges routine P of the specification, whole, with homes and damaged in each way, each without names and with a name
 * at each mark, into a slot, starts it and others from slots, and runs what was started: jugrond_certify and
 * jugrond_start_certified. Slots of any bytes are started too; what must stand in memory and registers then is computed
 * here, from the header's words. Looks at every byte and number that was lent and at guard bytes around them. Prints a
 * line for each difference and for each group, and last the groups' count; the exit status tells.
 */
#include "jugrond.h"

#include "expect.h"
#include "lent.h"
#include "routines.h"

#include <stdbool.h>
#include <stdio.h>
#include <stdlib.h>
#include <string.h>

#define LONGEST_IMAGE 65535 /* the most that a slot can name */

static uint8_t ticket[P_MOST_TICKET_BYTES], image[LONGEST_IMAGE + 1];
static uint8_t background[JUGROND_MEMORY_BYTES + 1];

/* The same bytes at each run of this program. */
static uint32_t random_state;

static uint32_t random_below(uint32_t bound)
{
    random_state ^= random_state << 13;
    random_state ^= random_state >> 17;
    random_state ^= random_state << 5;
    return random_state % bound;
}

static void put_word(uint8_t *bytes, uint16_t word)
{
    bytes[0] = (uint8_t)(word >> 8);
    bytes[1] = (uint8_t)word;
}

/* A slot that holds another routine's numbers before: a refusal must leave each of them. */
static const uint8_t old_slot[JUGROND_SLOT_BYTES + 1] = {1,  2,  3,  4,  5,  6,  7,  8,  9,  10, 11, 12, 13, 14,
                                                         15, 16, 17, 18, 19, 20, 21, 22, 23, 24, 25, 26, 27};

static void check_certify(const struct routine *c, size_t slot_length, size_t guard)
{
    bool sized = slot_length == JUGROND_SLOT_BYTES;
    uint32_t outcome = sized ? c->outcome : JUGROND_BAD_LENGTH;
    struct lent t, i, s = lend(old_slot, slot_length, guard), place = lend(NULL, 4, guard);

    make_ticket(c, ticket);
    make_image(c, image);
    t = lend(ticket, c->ticket_length, guard);
    i = lend(image, c->image_length, guard);
    expect_number(
        c->name, "outcome of certify",
        jugrond_certify(t.bytes, t.length, i.bytes, i.length, s.bytes, s.length, (uint32_t *)(void *)place.bytes),
        outcome);
    expect_bytes(c->name, "ticket", &t, ticket);
    expect_bytes(c->name, "image", &i, image);
    expect_bytes(c->name, "slot", &s, outcome == JUGROND_ACCEPTED ? c->slot : old_slot);
    expect_lent(c->name, "place", &place, outcome != JUGROND_ACCEPTED, sized ? c->place : 0);
    take_back(&t);
    take_back(&i);
    take_back(&s);
    take_back(&place);
}

/* 24 bytes were a slot before it had home. */
static const size_t slot_lengths[] = {26, 0, 24, 25, 27};
#define SLOT_LENGTHS (sizeof slot_lengths / sizeof slot_lengths[0])

static void check_slot_filled(const struct routine *c, size_t guard)
{
    for (size_t j = 0; j < SLOT_LENGTHS; j++)
        check_certify(c, slot_lengths[j], guard);
}

static void check_slots_filled(size_t guard)
{
    for_each_routine(check_slot_filled, guard);
}

/* What is lent to a start, and how much of it. */
struct start {
    const uint8_t *slot;
    size_t slot_length, image_length, registers_length, memory_length;
};

/* The lowest SP is above the SP of some starts, and below that of others. */
static const uint8_t given[JUGROND_REGISTER_BYTES + 1] = {7,    8,    0x12, 0x34, 0x56, 0x78, 0x9a,
                                                          0xbc, 0xde, 0xf0, 0x31, 0x80, 0x99, 0x66};

static uint32_t start_outcome(const struct start *c)
{
    if (c->slot_length != JUGROND_SLOT_BYTES || c->registers_length != JUGROND_REGISTER_BYTES ||
        c->memory_length != JUGROND_MEMORY_BYTES)
        return JUGROND_BAD_LENGTH;
    if (c->image_length != slot_number(c->slot, JUGROND_SLOT_CODE_LENGTH, 2))
        return JUGROND_BAD_IMAGE;
    return JUGROND_ACCEPTED;
}

/* The image to the code window, then home to the last two bytes of the stack window, high byte first, SP and the lowest
 * SP below them, PC to the entry; addresses wrap. */
static void start_wanted(const uint8_t *slot, size_t image_length, uint8_t *registers, uint8_t *memory)
{
    uint32_t code = slot_number(slot, JUGROND_SLOT_CODE, 2);
    uint32_t past = slot_number(slot, JUGROND_SLOT_STACK, 2) + slot_number(slot, JUGROND_SLOT_STACK_LENGTH, 2) +
                    JUGROND_MEMORY_BYTES;

    for (size_t i = 0; i < image_length; i++)
        memory[(code + i) % JUGROND_MEMORY_BYTES] = image[i];
    memory[(past - 2) % JUGROND_MEMORY_BYTES] = slot[JUGROND_SLOT_HOME];
    memory[(past - 1) % JUGROND_MEMORY_BYTES] = slot[JUGROND_SLOT_HOME + 1];
    put_word(registers + JUGROND_SP, (uint16_t)(past - 3));
    put_word(registers + JUGROND_LOWEST_SP, (uint16_t)(past - 3));
    put_word(registers + JUGROND_PC, (uint16_t)slot_number(slot, JUGROND_SLOT_ENTRY, 2));
}

static void check_start(const char *name, const struct start *c, size_t guard)
{
    static uint8_t memory[JUGROND_MEMORY_BYTES + 1];
    uint8_t registers[sizeof given];
    uint32_t outcome = start_outcome(c);
    struct lent s = lend(c->slot, c->slot_length, guard), i = lend(image, c->image_length, guard),
                r = lend(given, c->registers_length, guard);
    struct lent m = lend(background, c->memory_length, guard), home = lend(NULL, 2, guard),
                place = lend(NULL, 4, guard);

    memcpy(registers, given, sizeof registers);
    memcpy(memory, background, sizeof memory);
    if (outcome == JUGROND_ACCEPTED)
        start_wanted(c->slot, c->image_length, registers, memory);
    expect_number(name, "outcome of a start",
                  jugrond_start_certified(s.bytes, s.length, i.bytes, i.length, r.bytes, r.length, m.bytes, m.length,
                                          (uint16_t *)(void *)home.bytes, (uint32_t *)(void *)place.bytes),
                  outcome);
    expect_bytes(name, "slot", &s, c->slot);
    expect_bytes(name, "image", &i, image);
    expect_bytes(name, "registers", &r, registers);
    expect_bytes(name, "memory", &m, memory);
    expect_lent(name, "home", &home, outcome == JUGROND_ACCEPTED, slot_number(c->slot, JUGROND_SLOT_HOME, 2));
    expect_lent(name, "place", &place, outcome != JUGROND_ACCEPTED, 0);
    take_back(&s);
    take_back(&i);
    take_back(&r);
    take_back(&m);
    take_back(&home);
    take_back(&place);
}

/* Each length alone, right and wrong; and two wrong ones. With a wrong image too, the lengths that are refused come
 * first. */
static void check_lengths(size_t guard)
{
    static const size_t registers[] = {13, 0, 11, 12, 14}, memories[] = {65536, 0, 65535, 65537},
                        images[] = {11, 0, 10, 12};
    uint8_t slot[JUGROND_SLOT_BYTES + 1] = {0};

    memcpy(slot, routines[0].slot, JUGROND_SLOT_BYTES);
    make_image(&routines[0], image);
    for (size_t s = 0; s < SLOT_LENGTHS; s++)
        for (size_t r = 0; r < 5; r++)
            for (size_t m = 0; m < 4; m++)
                for (size_t i = 0; i < 4; i++) {
                    struct start c = {slot, slot_lengths[s], images[i], registers[r], memories[m]};

                    check_start("lengths", &c, guard);
                }
}

/* The other lengths are right. */
static void check_slot(const char *name, const uint8_t *slot, size_t image_length, size_t guard)
{
    struct start c = {slot, JUGROND_SLOT_BYTES, image_length, JUGROND_REGISTER_BYTES, JUGROND_MEMORY_BYTES};

    check_start(name, &c, guard);
}

static void check_zeros(size_t guard)
{
    static const uint8_t zeros[JUGROND_SLOT_BYTES];

    check_slot("zeros, an image of no bytes", zeros, 0, guard);
    check_slot("zeros, an image of 1 byte", zeros, 1, guard);
    check_slot("zeros, P", zeros, P_IMAGE_BYTES, guard);
    check_slot("zeros, the longest image", zeros, LONGEST_IMAGE, guard);
}

/* A slot's home goes to memory and to the number lent for it, whatever it is: also one in the code window, which no
 * ticket has. The bytes that differ tell which of them goes where. */
static void check_homes(size_t guard)
{
    static const uint16_t homes[] = {0x0000, 0x1234, 0x3412, 0x00ff, 0xff00, 0xffff, 0x0040, 0x01f4, 0x8000, 0x800a};
    uint8_t slot[JUGROND_SLOT_BYTES];

    memcpy(slot, routines[0].slot, sizeof slot);
    make_image(&routines[0], image);
    for (size_t i = 0; i < sizeof homes / sizeof homes[0]; i++) {
        put_word(slot + JUGROND_SLOT_HOME, homes[i]);
        check_slot("a slot with a home", slot, P_IMAGE_BYTES, guard);
        check_slot("a slot with a home, another image", slot, P_IMAGE_BYTES - 1, guard);
    }
}

/* Any bytes, with the image that the slot names and with another; the stack window ends often inside the image, and
 * around $0000. */
static void check_any_slots(size_t guard)
{
    random_state = 2463534242u;
    for (size_t i = 0; i < sizeof image; i++)
        image[i] = (uint8_t)(1 + random_below(255)); /* no zero: the bytes of home $0000 are seen among them */
    for (int i = 0; i < 400; i++) {
        uint8_t slot[JUGROND_SLOT_BYTES];
        uint32_t code, length;

        for (size_t j = 0; j < sizeof slot; j++)
            slot[j] = (uint8_t)random_below(256);
        if (i % 2 == 0)
            put_word(slot + JUGROND_SLOT_CODE_LENGTH, (uint16_t)random_below(4097));
        if (i % 8 < 4)
            put_word(slot + JUGROND_SLOT_HOME, 0x0000);
        code = slot_number(slot, JUGROND_SLOT_CODE, 2);
        length = slot_number(slot, JUGROND_SLOT_CODE_LENGTH, 2);
        if (i % 4 < 2) { /* the two last bytes of the stack window at, before or after the code window's ends */
            uint32_t end = code + (i % 4 == 0 ? 0 : length) + random_below(5) - 2;

            put_word(slot + JUGROND_SLOT_STACK, (uint16_t)(end - slot_number(slot, JUGROND_SLOT_STACK_LENGTH, 2)));
        } else if (i % 4 == 2) { /* and at the ends of memory */
            put_word(slot + JUGROND_SLOT_STACK,
                     (uint16_t)(random_below(5) - 2 - slot_number(slot, JUGROND_SLOT_STACK_LENGTH, 2)));
        }
        check_slot("any slot", slot, length, guard);
        check_slot("any slot, another image", slot, random_below(LONGEST_IMAGE + 1), guard);
    }
}

/* What a monitor keeps of a routine that was accepted. */
struct kept {
    uint8_t slot[JUGROND_SLOT_BYTES];
    uint32_t cost;
    uint16_t entry, home, stack;
};

/* Judges a routine over what is kept. */
static void load(const struct routine *c, struct kept *k)
{
    uint32_t place = 0;

    make_ticket(c, ticket);
    make_image(c, image);
    expect_number(c->name, "certify",
                  jugrond_certify(ticket, c->ticket_length, image, c->image_length, k->slot, sizeof k->slot, &place),
                  c->outcome);
    expect_number(c->name, "verdict",
                  jugrond_verdict(ticket, c->ticket_length, image, c->image_length, &k->entry, &k->home, &k->cost,
                                  &k->stack, &place),
                  c->outcome);
}

/* A refused reload loses neither the slot nor the figures that the monitor keeps. */
static void check_reload_over(const struct routine *loaded)
{
    for (size_t i = 0; i < routine_count; i++) {
        const struct routine *c = &routines[i];
        struct kept k = {.cost = 0};

        load(loaded, &k);
        if (c->outcome == JUGROND_ACCEPTED)
            continue;
        load(c, &k);
        expect_number(c->name, "slot kept", memcmp(k.slot, loaded->slot, sizeof k.slot) == 0, 1);
        expect_number(c->name, "cost kept", k.cost, slot_number(loaded->slot, JUGROND_SLOT_COST, 4));
        expect_number(c->name, "entry kept", k.entry, slot_number(loaded->slot, JUGROND_SLOT_ENTRY, 2));
        expect_number(c->name, "home kept", k.home, slot_number(loaded->slot, JUGROND_SLOT_HOME, 2));
        expect_number(c->name, "stack kept", k.stack, slot_number(loaded->slot, JUGROND_SLOT_STACK_BYTES, 2));
    }
}

static void check_reload(void)
{
    for (size_t i = 0; i < routine_count; i++)
        if (routines[i].outcome == JUGROND_ACCEPTED)
            check_reload_over(&routines[i]);
}

struct file {
    uint8_t bytes[4096];
    size_t length;
};

static void read_file(struct file *f, const char *name)
{
    FILE *in = fopen(name, "rb");

    if (in == NULL) {
        perror(name);
        exit(2);
    }
    f->length = fread(f->bytes, 1, sizeof f->bytes, in);
    fclose(in);
}

#define AFTER_ENTRY 22

/* A home command after the entry. */
static void put_home(struct file *paper, uint16_t home)
{
    uint8_t *at = paper->bytes + AFTER_ENTRY;

    memmove(at + HOME_BYTES, at, paper->length - AFTER_ENTRY);
    at[0] = 7;
    put_word(at + 1, home);
    paper->length += HOME_BYTES;
}

/* What the ticket says of home: $0000 where it says nothing. */
static uint32_t home_in(const struct file *paper)
{
    return paper->bytes[AFTER_ENTRY] == 7 ? slot_number(paper->bytes, AFTER_ENTRY + 1, 2) : 0x0000;
}

/* The ticket's first four commands without their command bytes, then what the verdict answers, home last. */
static void check_layout(const char *name, const uint8_t *slot, const struct file *paper, const struct file *code)
{
    uint32_t cost = 0, place = 0;
    uint16_t entry = 0, home = 0xaaaa, stack = 0;

    expect_number(name, "verdict",
                  jugrond_verdict(paper->bytes, paper->length, code->bytes, code->length, &entry, &home, &cost, &stack,
                                  &place),
                  JUGROND_ACCEPTED);
    expect_number(name, "code window", memcmp(slot + JUGROND_SLOT_CODE, paper->bytes + 1, 4) == 0, 1);
    expect_number(name, "data window", memcmp(slot + JUGROND_SLOT_DATA, paper->bytes + 6, 4) == 0, 1);
    expect_number(name, "stack window", memcmp(slot + JUGROND_SLOT_STACK, paper->bytes + 11, 4) == 0, 1);
    expect_number(name, "entry and limit", memcmp(slot + JUGROND_SLOT_ENTRY, paper->bytes + 16, 6) == 0, 1);
    expect_number(name, "entry", slot_number(slot, JUGROND_SLOT_ENTRY, 2), entry);
    expect_number(name, "cost", slot_number(slot, JUGROND_SLOT_COST, 4), cost);
    expect_number(name, "stack bytes", slot_number(slot, JUGROND_SLOT_STACK_BYTES, 2), stack);
    expect_number(name, "home", slot_number(slot, JUGROND_SLOT_HOME, 2), home);
    expect_number(name, "home in the ticket", home_in(paper), home);
}

/* Registers and memory that are started and run. */
struct machine {
    uint8_t registers[JUGROND_REGISTER_BYTES], memory[JUGROND_MEMORY_BYTES];
};

static struct machine judged, certified; /* started from the ticket and from the slot */

static void set_machine(struct machine *m)
{
    memcpy(m->registers, given, sizeof m->registers);
    memcpy(m->memory, background, sizeof m->memory);
}

static void expect_same(const char *name, const char *registers, const char *memory)
{
    expect_number(name, registers, memcmp(judged.registers, certified.registers, sizeof judged.registers) == 0, 1);
    expect_number(name, memory, memcmp(judged.memory, certified.memory, sizeof judged.memory) == 0, 1);
}

static uint32_t run_machine(struct machine *m, uint16_t home, uint32_t budget, uint32_t *cycles)
{
    uint16_t place;

    return jugrond_run(m->registers, sizeof m->registers, m->memory, sizeof m->memory, home, budget, cycles, &place);
}

/* Started from its slot a routine does what it does started from its ticket. */
static void check_both(const char *name, const uint8_t *slot, const struct file *paper, const struct file *code,
                       uint32_t budget)
{
    uint32_t place, outcome, spent_judged = 0, spent_certified = 0;
    uint16_t home_judged = 0x5555, home_certified = 0xaaaa;

    set_machine(&judged);
    set_machine(&certified);
    expect_number(name, "start",
                  jugrond_start(paper->bytes, paper->length, code->bytes, code->length, judged.registers,
                                sizeof judged.registers, judged.memory, sizeof judged.memory, &home_judged, &place),
                  JUGROND_ACCEPTED);
    expect_number(name, "start from the slot",
                  jugrond_start_certified(slot, JUGROND_SLOT_BYTES, code->bytes, code->length, certified.registers,
                                          sizeof certified.registers, certified.memory, sizeof certified.memory,
                                          &home_certified, &place),
                  JUGROND_ACCEPTED);
    expect_same(name, "registers at the start", "memory at the start");
    expect_number(name, "home at the start", home_judged, home_in(paper));
    expect_number(name, "home at the start from the slot", home_certified, home_judged);
    outcome = run_machine(&judged, home_judged, budget, &spent_judged);
    expect_number(name, "outcome", run_machine(&certified, home_certified, budget, &spent_certified), outcome);
    expect_number(name, "cycles", spent_certified, spent_judged);
    expect_same(name, "registers", "memory");
    if (outcome == JUGROND_HOME)
        expect_number(name, "PC at home", slot_number(judged.registers, JUGROND_PC, 2), home_judged);
    if (budget >= slot_number(slot, JUGROND_SLOT_COST, 4))
        expect_number(name, "home within the certified cycles", outcome, JUGROND_HOME);
}

/* With a name at each mark the ticket fills the slot with the same bytes, and starts the same routine. */
static void check_named(const char *name, const uint8_t *slot, const struct file *paper, const struct file *code)
{
    static struct file named;
    uint8_t filled[JUGROND_SLOT_BYTES] = {0};
    uint32_t place;

    named.length = with_names(paper->bytes, paper->length, named.bytes);
    expect_number(name, "names put in", named.length > paper->length, 1);
    expect_number(name, "certify with names",
                  jugrond_certify(named.bytes, named.length, code->bytes, code->length, filled, sizeof filled, &place),
                  JUGROND_ACCEPTED);
    expect_number(name, "slot with names", memcmp(filled, slot, sizeof filled) == 0, 1);
    check_layout(name, slot, &named, code);
    check_both(name, slot, &named, code, UINT32_MAX);
}

/* With every budget up to some above the examples' certified cycles, of which the most are 99, and with the largest. */
static void check_budgets(const char *name, const struct file *paper, const struct file *code)
{
    uint8_t slot[JUGROND_SLOT_BYTES];
    uint32_t place;

    expect_number(name, "certify",
                  jugrond_certify(paper->bytes, paper->length, code->bytes, code->length, slot, sizeof slot, &place),
                  JUGROND_ACCEPTED);
    check_layout(name, slot, paper, code);
    for (uint32_t budget = 0; budget <= 110; budget++)
        check_both(name, slot, paper, code, budget);
    check_both(name, slot, paper, code, UINT32_MAX);
    check_named(name, slot, paper, code);
}

/* As it is, and with a home in its ticket. */
static void check_example(const char *image_name, const char *ticket_name)
{
    static struct file code, paper;

    read_file(&code, image_name);
    read_file(&paper, ticket_name);
    check_budgets(ticket_name, &paper, &code);
    put_home(&paper, 0xfedc);
    check_budgets(ticket_name, &paper, &code);
}

static void check_examples(void)
{
    check_example("examples/p/p.bin", "examples/p/p.tkt");
    check_example("examples/ramp/ramp.bin", "examples/ramp/ramp.tkt");
    check_example("examples/shared/shared.bin", "examples/shared/shared.tkt");
}

static const struct group groups[] = {
    {"slots filled", check_slots_filled, NULL},
    {"lengths", check_lengths, NULL},
    {"a slot of zeros", check_zeros, NULL},
    {"homes", check_homes, NULL},
    {"slots of any bytes", check_any_slots, NULL},
    {"a refused reload", NULL, check_reload},
    {"as from the ticket", NULL, check_examples},
};

int main(void)
{
    fill_background(background, sizeof background);
    return check_groups(groups, sizeof groups / sizeof groups[0]);
}

/*
 * Calls reset, step and run of jugrond.h on good and bad input, with every outcome, and looks at every byte and number
 * that was lent and at guard bytes around them. What a call does not answer must be as it was lent.
 * Prints a line for each difference and for each group, and last the groups' count; the exit status tells.
 */
#include "jugrond.h"

#include "cases.h"
#include "expect.h"
#include "lent.h"

#include <stdbool.h>
#include <string.h>

static void put_word(uint8_t *bytes, uint16_t word)
{
    bytes[0] = (uint8_t)(word >> 8);
    bytes[1] = (uint8_t)word;
}

static void pack(uint8_t *bytes, const struct registers *r)
{
    bytes[JUGROND_A] = r->a;
    bytes[JUGROND_B] = r->b;
    put_word(bytes + JUGROND_X, r->x);
    put_word(bytes + JUGROND_Y, r->y);
    put_word(bytes + JUGROND_SP, r->sp);
    put_word(bytes + JUGROND_PC, r->pc);
    bytes[JUGROND_FLAGS] = r->flags;
    put_word(bytes + JUGROND_LOWEST_SP, r->lowest);
}

static void put_bytes(uint8_t *memory, const struct bytes *blocks, size_t count)
{
    for (size_t i = 0; i < count; i++)
        for (size_t j = 0; j < blocks[i].count; j++)
            memory[(blocks[i].at + j) % JUGROND_MEMORY_BYTES] = blocks[i].byte[j];
}

/* What one call was lent. */
struct lending {
    struct lent registers, memory, cycles, place;
};

static struct lending lend_all(const uint8_t *registers, size_t registers_length, const uint8_t *memory,
                               size_t memory_length, size_t guard)
{
    struct lending l = {
        .registers = lend(registers, registers_length, guard),
        .memory = lend(memory, memory_length, guard),
        .cycles = lend(NULL, sizeof(uint32_t), guard),
        .place = lend(NULL, sizeof(uint16_t), guard),
    };
    return l;
}

static uint32_t call_step(struct lending *l)
{
    return jugrond_step(l->registers.bytes, l->registers.length, l->memory.bytes, l->memory.length,
                        (uint32_t *)(void *)l->cycles.bytes, (uint16_t *)(void *)l->place.bytes);
}

static uint32_t call_run(struct lending *l, uint16_t home, uint32_t budget)
{
    return jugrond_run(l->registers.bytes, l->registers.length, l->memory.bytes, l->memory.length, home, budget,
                       (uint32_t *)(void *)l->cycles.bytes, (uint16_t *)(void *)l->place.bytes);
}

/* Which lent numbers an outcome writes. */
struct written {
    bool cycles, place;
};

static struct written by_step(uint32_t outcome)
{
    return (struct written){.cycles = outcome == JUGROND_DONE, .place = outcome != JUGROND_DONE};
}

static struct written by_run(uint32_t outcome)
{
    return (struct written){.cycles = outcome != JUGROND_BAD_LENGTH,
                            .place = outcome != JUGROND_HOME && outcome != JUGROND_SPENT};
}

static void expect_all(const char *name, struct lending *l, const uint8_t *registers, const uint8_t *memory,
                       struct written written, uint32_t cycles, uint16_t place)
{
    expect_bytes(name, "registers", &l->registers, registers);
    expect_bytes(name, "memory", &l->memory, memory);
    expect_lent(name, "cycles", &l->cycles, written.cycles, cycles);
    expect_lent(name, "place", &l->place, written.place, place);
}

static void take_back_all(struct lending *l)
{
    take_back(&l->registers);
    take_back(&l->memory);
    take_back(&l->cycles);
    take_back(&l->place);
}

static void check_call(const struct call *c, bool is_run, size_t guard)
{
    static uint8_t memory[JUGROND_MEMORY_BYTES];
    uint8_t registers[JUGROND_REGISTER_BYTES];
    struct lending l;

    fill_background(memory, sizeof memory);
    put_bytes(memory, c->given, sizeof c->given / sizeof c->given[0]);
    pack(registers, &c->before);
    l = lend_all(registers, sizeof registers, memory, sizeof memory, guard);
    expect_number(c->name, "outcome", is_run ? call_run(&l, c->home, c->budget) : call_step(&l), c->outcome);
    put_bytes(memory, c->written, sizeof c->written / sizeof c->written[0]);
    pack(registers, &c->after);
    expect_all(c->name, &l, registers, memory, is_run ? by_run(c->outcome) : by_step(c->outcome), c->cycles, c->place);
    take_back_all(&l);
}

static void check_steps(size_t guard)
{
    for (size_t i = 0; i < step_count; i++)
        check_call(&steps[i], false, guard);
}

static void check_runs(size_t guard)
{
    for (size_t i = 0; i < run_count; i++)
        check_call(&runs[i], true, guard);
}

/* Each register byte has its place: a NOP changes PC's low byte alone, where the lowest SP is below SP. */
static void check_layout(size_t guard)
{
    static const uint8_t before[] = {0x01, 0x02, 0x03, 0x04, 0x05, 0x06, 0x17, 0x08, 0x09, 0x0a, 0x0b, 0x0c, 0x0d};
    static const uint8_t after[] = {0x01, 0x02, 0x03, 0x04, 0x05, 0x06, 0x17, 0x08, 0x09, 0x0b, 0x0b, 0x0c, 0x0d};
    static uint8_t memory[JUGROND_MEMORY_BYTES];
    struct lending l;

    fill_background(memory, sizeof memory);
    memory[0x090a] = 0x01;
    l = lend_all(before, sizeof before, memory, sizeof memory, guard);
    expect_number("NOP", "outcome", call_step(&l), JUGROND_DONE);
    expect_all("NOP", &l, after, memory, by_step(JUGROND_DONE), 2, 0);
    take_back_all(&l);
}

static void check_reset(size_t guard)
{
    static const uint8_t wanted[] = {0, 0, 0, 0, 0, 0, 0, 0, 0, 0, 0xd0, 0, 0};
    struct lent registers = lend(NULL, JUGROND_REGISTER_BYTES, guard);

    expect_number("reset", "outcome", jugrond_reset(registers.bytes, registers.length), JUGROND_DONE);
    expect_bytes("reset", "registers", &registers, wanted);
    take_back(&registers);
}

/* PC is $0000 in what is lent, and home too, so that a run that looked for home first would say so; the lowest SP is
 * above SP. */
static void check_length(const char *name, size_t registers_length, size_t memory_length, size_t guard)
{
    static const uint8_t registers[14] = {0x01, 0x02, 0x03, 0x04, 0x05, 0x06, 0x07,
                                          0x08, 0x00, 0x00, 0x0b, 0x0c, 0x0d, 0x0e};
    static uint8_t memory[JUGROND_MEMORY_BYTES + 1];
    struct lending l;

    fill_background(memory, sizeof memory);
    l = lend_all(registers, registers_length, memory, memory_length, guard);
    expect_number(name, "outcome of a step", call_step(&l), JUGROND_BAD_LENGTH);
    expect_all(name, &l, registers, memory, by_step(JUGROND_BAD_LENGTH), 0, 0);
    take_back_all(&l);
    l = lend_all(registers, registers_length, memory, memory_length, guard);
    expect_number(name, "outcome of a run", call_run(&l, 0x0000, 1000), JUGROND_BAD_LENGTH);
    expect_all(name, &l, registers, memory, by_run(JUGROND_BAD_LENGTH), 0, 0);
    take_back_all(&l);
    if (registers_length != JUGROND_REGISTER_BYTES) {
        struct lent reset = lend(registers, registers_length, guard);

        expect_number(name, "outcome of a reset", jugrond_reset(reset.bytes, reset.length), JUGROND_BAD_LENGTH);
        expect_bytes(name, "registers", &reset, registers);
        take_back(&reset);
    }
}

static void check_lengths(size_t guard)
{
    check_length("registers 0", 0, 65536, guard);
    check_length("registers 11, as without the lowest SP", 11, 65536, guard);
    check_length("registers 12", 12, 65536, guard);
    check_length("registers 14", 14, 65536, guard);
    check_length("memory 0", 13, 0, guard);
    check_length("memory 65,535", 13, 65535, guard);
    check_length("memory 65,537", 13, 65537, guard);
    check_length("registers 0, memory 0", 0, 0, guard);
    check_length("registers 14, memory 65,535", 14, 65535, guard);
}

static uint16_t word_in(const uint8_t *bytes)
{
    return (uint16_t)(bytes[0] << 8 | bytes[1]);
}

/* Routine P by steps, each on the bytes that the one before left, does what the run does. */
static void check_in_turn(size_t guard)
{
    static const uint16_t lowest[] = {0x01f1, 0x01ef, 0x01ef, 0x01ef, 0x01ef, 0x01ef}; /* SP, after each step */
    const struct call *p = &runs[0];
    static uint8_t memory[JUGROND_MEMORY_BYTES];
    uint8_t registers[JUGROND_REGISTER_BYTES];
    struct lending l;
    uint32_t sum = 0, cycles = 0;
    int done = 0;

    fill_background(memory, sizeof memory);
    put_bytes(memory, p->given, sizeof p->given / sizeof p->given[0]);
    pack(registers, &p->before);
    l = lend_all(registers, sizeof registers, memory, sizeof memory, guard);
    do {
        expect_number("P in turn", "outcome", call_step(&l), JUGROND_DONE);
        memcpy(&cycles, l.cycles.bytes, sizeof cycles);
        sum += cycles;
        expect_number("P in turn", "lowest SP", word_in(l.registers.bytes + JUGROND_LOWEST_SP), lowest[done]);
        done++;
    } while (done < 6 && word_in(l.registers.bytes + JUGROND_PC) != p->home);
    expect_number("P in turn", "steps", (uint32_t)done, 6);
    expect_number("P in turn", "cycles", sum, p->cycles);
    put_bytes(memory, p->written, sizeof p->written / sizeof p->written[0]);
    pack(registers, &p->after);
    expect_all("P in turn", &l, registers, memory, by_step(JUGROND_DONE), 5, 0);
    take_back_all(&l);
}

static const struct group groups[] = {
    {"reset", check_reset, NULL}, {"layout", check_layout, NULL},   {"steps", check_steps, NULL},
    {"runs", check_runs, NULL},   {"lengths", check_lengths, NULL}, {"steps in turn", check_in_turn, NULL},
};

int main(void)
{
    return check_groups(groups, sizeof groups / sizeof groups[0]);
}

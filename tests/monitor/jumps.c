/*
 * While a sum or a difference is executed, no conditional jump of the host depends on its condition codes, V among
 * them. To be run under valgrind: what an instruction computes with is marked as undefined, and valgrind counts each
 * conditional jump, and each address, that depends on it. Of each instruction: a run over it counts none, so at these
 * addresses the way taken is that of all operands; V, which was defined, is then undefined: what was marked reached the
 * byte of flags; and a run over BVS, with V alone undefined, counts its jump, so valgrind does look. An index stays
 * defined, as an address that depends on it is counted: of CPX IND,X and CPY IND,Y the word in memory alone is marked.
 * Prints a line for each difference, and last the count of instructions; the exit status tells.
 */
#include "jugrond.h"

#include "expect.h"

#include <stdio.h>
#include <string.h>
#include <valgrind/memcheck.h>

enum { CODE = 0x8000, NEAR = 0x40, FAR = 0x2040, WORD = 2, NOP = 0x01, BVS = 0x29, V = 0x02 };
enum { HOME = 0x0000, BUDGET = 20, INSTRUCTIONS = 83 };

static uint8_t memory[JUGROND_MEMORY_BYTES], registers[JUGROND_REGISTER_BYTES];
static unsigned instructions;

/* An instruction's bytes, how many of its last ones are an immediate operand, and the offset of its index, or 0. */
struct code {
    uint8_t bytes[5];
    size_t length, immediate, index;
};

static void put(struct code *c, unsigned byte)
{
    c->bytes[c->length++] = (uint8_t)byte;
}

static void put_word(struct code *c, unsigned word)
{
    put(c, word >> 8);
    put(c, word & 0xFF);
}

/* The prefix, where there is one, and the opcode. */
static struct code opcode(unsigned prefix, unsigned byte)
{
    struct code c = {{0}, 0, 0, 0};

    if (prefix != 0)
        put(&c, prefix);
    put(&c, byte);
    return c;
}

static struct code extended(unsigned prefix, unsigned byte)
{
    struct code c = opcode(prefix, byte);

    put_word(&c, FAR);
    return c;
}

static struct code indexed(unsigned prefix, unsigned byte, size_t index)
{
    struct code c = opcode(prefix, byte);

    c.index = index;
    put(&c, 0);
    return c;
}

static void undefine(void *at, size_t length)
{
    (void)VALGRIND_MAKE_MEM_UNDEFINED(at, length);
}

/* Of the flags exactly these bits. */
static void undefine_flags(uint8_t bits)
{
    (void)VALGRIND_SET_VBITS(registers + JUGROND_FLAGS, &bits, 1);
}

static bool v_is_undefined(void)
{
    uint8_t bits = 0;

    (void)VALGRIND_GET_VBITS(registers + JUGROND_FLAGS, &bits, 1);
    return (bits & V) != 0;
}

/* Registers and memory before the instruction, which NOPs follow: all that it computes with is undefined but V. */
static void make(const struct code *c)
{
    static const uint8_t start[JUGROND_REGISTER_BYTES] = {
        0x12, 0x34, FAR >> 8, FAR & 0xFF, FAR >> 8, FAR & 0xFF, 0x01, 0xFF, CODE >> 8, CODE & 0xFF, 0xD0, 0x01, 0xFF};

    memset(memory, NOP, sizeof memory);
    memcpy(memory + CODE, c->bytes, c->length);
    memcpy(registers, start, sizeof start);
    undefine(memory + NEAR, WORD);
    undefine(memory + FAR, WORD);
    undefine(memory + CODE + c->length - c->immediate, c->immediate);
    undefine(registers + JUGROND_A, WORD);
    if (c->index != JUGROND_X)
        undefine(registers + JUGROND_X, WORD);
    if (c->index != JUGROND_Y)
        undefine(registers + JUGROND_Y, WORD);
    undefine_flags(0xFF & ~V);
}

/* BVS at PC, and V alone undefined. */
static void make_bvs(void)
{
    memory[registers[JUGROND_PC] << 8 | registers[JUGROND_PC + 1]] = BVS;
    (void)VALGRIND_MAKE_MEM_DEFINED(registers, sizeof registers);
    undefine_flags(V);
}

/* How many conditional jumps and addresses of a run depend on what is undefined. */
static unsigned dependent(const char *name)
{
    uint32_t cycles;
    uint16_t place;
    unsigned before = VALGRIND_COUNT_ERRORS;

    expect_number(name, "outcome",
                  jugrond_run(registers, sizeof registers, memory, sizeof memory, HOME, BUDGET, &cycles, &place),
                  JUGROND_SPENT);
    return VALGRIND_COUNT_ERRORS - before;
}

static void check(const struct code c)
{
    char name[16];

    snprintf(name, sizeof name, "%02X %02X", c.bytes[0], c.bytes[1]);
    make(&c);
    expect_number(name, "jumps and addresses that depend on the operands", dependent(name), 0);
    expect_number(name, "V is undefined", v_is_undefined(), true);
    make_bvs();
    expect_number(name, "BVS depends on V", dependent(name) > 0, true);
    instructions++;
}

/* The opcodes of one operation: immediate, direct, extended, indexed by X and by Y. */
static void check_modes(unsigned first, size_t width, unsigned prefix, unsigned prefix_x, unsigned prefix_y)
{
    struct code immediate = opcode(prefix, first), direct = opcode(prefix, first + 0x10);

    for (immediate.immediate = 0; immediate.immediate < width; immediate.immediate++)
        put(&immediate, 0);
    put(&direct, NEAR);
    check(immediate);
    check(direct);
    check(extended(prefix, first + 0x30));
    check(indexed(prefix_x, first + 0x20, JUGROND_X));
    check(indexed(prefix_y, first + 0x20, JUGROND_Y));
}

int main(void)
{
    static const uint8_t of_a[] = {0x80, 0x81, 0x82, 0x89, 0x8B};     /* SUBA CMPA SBCA ADCA ADDA */
    static const uint8_t inherent[] = {0x1B, 0x10, 0x11, 0x40, 0x50}; /* ABA SBA CBA NEGA NEGB */
    size_t i;

    if (!RUNNING_ON_VALGRIND) {
        puts("not under valgrind");
        return 2;
    }
    for (i = 0; i < sizeof of_a; i++) {
        check_modes(of_a[i], 1, 0, 0, 0x18);
        check_modes(of_a[i] + 0x40u, 1, 0, 0, 0x18); /* the same of B */
    }
    check_modes(0xC3, 2, 0, 0, 0x18);       /* ADDD */
    check_modes(0x83, 2, 0, 0, 0x18);       /* SUBD */
    check_modes(0x83, 2, 0x1A, 0x1A, 0xCD); /* CPD */
    check_modes(0x8C, 2, 0, 0, 0xCD);       /* CPX */
    check_modes(0x8C, 2, 0x18, 0x1A, 0x18); /* CPY */
    for (i = 0; i < sizeof inherent; i++)
        check(opcode(0, inherent[i]));
    check(extended(0, 0x70)); /* NEG */
    check(indexed(0, 0x60, JUGROND_X));
    check(indexed(0x18, 0x60, JUGROND_Y));
    expect_number("all", "instructions", instructions, INSTRUCTIONS);
    printf("jumps: %u instructions, %d differences\n", instructions, differences);
    return differences == 0 ? 0 : 1;
}

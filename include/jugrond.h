/*
 * The 68HC11 stepper, the verdict on a routine and its start, for the press monitor. tools/install puts this header,
 * the library and a file for pkg-config where they are wanted; link with `pkg-config --libs jugrond`.
 *
 * Registers are 13 bytes, words high byte first; the offsets are below. The flags are S X H I N Z V C from bit 7 to
 * bit 0. Memory is 65,536 bytes: the byte at address n has index n, and every address wraps.
 *
 * Home is the address at which a routine ends. Its ticket says it, and where it does not home is $0000. The calls that
 * judge or start a routine answer it, jugrond_certify in its slot, and jugrond_run is given it.
 *
 * A buffer is lent as a pointer and its length in bytes. Where the length is 0 the pointer may be null, as that of an
 * empty std::vector in C++; no other pointer is, nor one to a number. What the pointers lend does not overlap. A call
 * keeps nothing that was lent to it, and touches no byte past the lengths.
 *
 * What a call does not answer it leaves as it was lent. A refusal writes its place and nothing else; only a run that 22
 * or 23 stops keeps what was done before, and writes its cycles too: 0 where it is stopped at its first instruction.
 * Where nothing is refused, the place is not written. So the outcome alone tells which lent numbers are written: each
 * call below names them.
 */
#ifndef JUGROND_H
#define JUGROND_H

#include <stddef.h>
#include <stdint.h>

#ifdef __cplusplus
extern "C" {
#endif

/*
 * The version of this header and of the library that it belongs to, as text and, for #if, as the number
 * 10000 * major + 100 * minor + patch. docs/CHANGELOG.md says what each version changes. Major rises where a caller
 * has to change something, minor where something is added.
 */
#define JUGROND_VERSION "3.0.3"
#define JUGROND_VERSION_NUMBER 30003

#define JUGROND_REGISTER_BYTES 13
#define JUGROND_MEMORY_BYTES 65536

/* Offsets in the register bytes. X, Y, SP, PC and the lowest SP have two bytes. */
#define JUGROND_A 0
#define JUGROND_B 1
#define JUGROND_X 2
#define JUGROND_Y 4
#define JUGROND_SP 6
#define JUGROND_PC 8
#define JUGROND_FLAGS 10
#define JUGROND_LOWEST_SP 11 /* the smallest value that SP has had after any instruction; a start sets it to its SP */

/*
 * A slot keeps the certificate of a routine that was judged: windows, entry and limit as the ticket has them, which a
 * start goes by, then the certified figures, and last home, which a start goes by too. Its numbers are high byte first,
 * at these offsets, and of two bytes where nothing is said.
 */
#define JUGROND_SLOT_BYTES 26
#define JUGROND_SLOT_CODE 0 /* code window: first address */
#define JUGROND_SLOT_CODE_LENGTH 2
#define JUGROND_SLOT_DATA 4 /* data window: first address */
#define JUGROND_SLOT_DATA_LENGTH 6
#define JUGROND_SLOT_STACK 8 /* stack window: first address */
#define JUGROND_SLOT_STACK_LENGTH 10
#define JUGROND_SLOT_ENTRY 12
#define JUGROND_SLOT_LIMIT 14       /* the ticket's limit in cycles, 4 bytes */
#define JUGROND_SLOT_COST 18        /* certified cycles, 4 bytes */
#define JUGROND_SLOT_STACK_BYTES 22 /* the most stack bytes that it uses, home's two included */
#define JUGROND_SLOT_HOME 24        /* $0000 where the ticket does not say it */

/*
 * The host's stack, in bytes: a thread with the first figure can make any call, one with the second can reset, step,
 * run and start from a slot. One with less may run over its stack, and the program then dies. Measured by bench/stack
 * of the library that this source makes for x86-64: what the deepest call uses, and at least 16 KiB besides for the
 * thread's own data, the frames above the call and a signal's, in whole pages of 4 KiB. The tests make every call in
 * threads of exactly these sizes.
 */
#define JUGROND_HOST_STACK_BYTES 233472
#define JUGROND_HOST_STACK_TICK_BYTES 32768

/*
 * Outcomes. Those from 1 to 27 and 29 are the numbers of refusals, with their place in *place: docs/REFUSALS.md has for
 * each its place and what to do, and jugrond_text.h a line of text.
 */
#define JUGROND_DONE 0     /* a reset or a step was done */
#define JUGROND_HOME 0     /* a run reached home */
#define JUGROND_ACCEPTED 0 /* a routine was accepted, or accepted and started, or started from its slot */
#define JUGROND_SPENT 100  /* the next instruction of a run would pass the budget */

/* Found in the ticket's bytes; the place is an offset there. */
#define JUGROND_UNKNOWN_COMMAND 1 /* no command has this byte */
#define JUGROND_TICKET_CUT 2      /* the ticket ends before its end command */
#define JUGROND_OUT_OF_ORDER 3    /* a command out of order or repeated */
#define JUGROND_OUT_OF_RANGE 4    /* an operand outside its range */
#define JUGROND_WINDOW_EDGE 5     /* a window past $FFFF, or code or stack from $0000 */
#define JUGROND_WINDOWS_SHARE 6   /* a window shares an address with an earlier one */
#define JUGROND_MARK_OUTSIDE 7    /* a mark outside the code window */
#define JUGROND_AFTER_END 8       /* bytes after the end command */
#define JUGROND_BAD_HOME 29       /* home inside the code window */

/* The image. */
#define JUGROND_BAD_IMAGE 9 /* its length is not the code window's; place 0 */

/* Found at a mark; the place is its address. */
#define JUGROND_BAD_MARK 10        /* no such instruction, or it leaves the code window */
#define JUGROND_KEPT_OUT 11        /* an instruction that no routine may use */
#define JUGROND_WRITES_OUTSIDE 12  /* a write outside the data window */
#define JUGROND_BAD_PULL 13        /* pulls more than was pushed, or returns with bytes still pushed */
#define JUGROND_NOT_MARKED 14      /* an address that can come next has no mark */
#define JUGROND_DEPTHS_DISAGREE 15 /* the depth at a mark that comes next */
#define JUGROND_COST_TOO_LOW 16
#define JUGROND_NEED_TOO_LOW 17

/* Found of the whole routine; the place is its entry. */
#define JUGROND_BAD_ENTRY 18       /* not marked, or its depth is not 0 */
#define JUGROND_OVER_LIMIT 19      /* its cost is above the limit */
#define JUGROND_STACK_TOO_SMALL 20 /* its need, and home's two bytes, are above the stack window's length */

/* A step, a run, a start. */
#define JUGROND_BAD_LENGTH 21     /* registers not 13 bytes, memory not 65,536 or a slot not 26; place 0 */
#define JUGROND_NO_INSTRUCTION 22 /* no such instruction; place PC */
#define JUGROND_WAITS 23          /* WAI, STOP or TEST; place PC */

/* The writer of tickets, which no call of this header is. */
#define JUGROND_OUTPUT_TOO_SMALL 24 /* the place is the bytes needed */

/*
 * An image that comes as an S-record file, which no call of this header takes: the programs at the desk, and a call in
 * Rattle, answer these. The place is the line, from 1.
 */
#define JUGROND_BAD_RECORD 25   /* a malformed line, one after S9, or no S9: one line after the last */
#define JUGROND_BAD_CHECKSUM 26 /* a wrong checksum */
#define JUGROND_BAD_ADDRESS 27  /* a byte outside the code window or given twice; place 0: one never given */

/*
 * Writes the reset value: all zero, flags $D0. A lowest SP of 0 stays 0 until a start, or the caller, sets it.
 * Outcomes: JUGROND_DONE; JUGROND_BAD_LENGTH, nothing changed.
 */
uint32_t jugrond_reset(uint8_t *registers, size_t registers_length);

/*
 * Executes the instruction at PC.
 * JUGROND_DONE: registers and memory are those after it, *cycles its cycles; *place is not written. The lowest SP is
 * the smaller of the one lent and SP after the instruction.
 * JUGROND_BAD_LENGTH, looked at first: *place is 0. JUGROND_NO_INSTRUCTION, JUGROND_WAITS: *place is PC. In these three
 * nothing else is written: *cycles, every register byte and every byte of memory stay.
 */
uint32_t jugrond_step(uint8_t *registers, size_t registers_length, uint8_t *memory, size_t memory_length,
                      uint32_t *cycles, uint16_t *place);

/*
 * Executes instructions until PC is home, the next one is refused, or it would take the cycles past the budget, looked
 * at in that order before each. A budget of 0 executes none. Home is any address, and what stands there is not looked
 * at; $0000 is an address like any other where it is not home.
 * JUGROND_HOME, JUGROND_SPENT: registers and memory are those reached, *cycles the cycles spent; *place is not written.
 * JUGROND_NO_INSTRUCTION, JUGROND_WAITS: the same, and *place is PC, so that a refusal keeps what was done before it.
 * Where it is the first instruction, *cycles is 0 and registers and memory stay.
 * In all four the lowest SP is the smallest of the one lent and SP after each instruction executed.
 * JUGROND_BAD_LENGTH, looked at first: *place is 0, nothing else is written.
 */
uint32_t jugrond_run(uint8_t *registers, size_t registers_length, uint8_t *memory, size_t memory_length,
                     uint16_t home, uint32_t budget, uint32_t *cycles, uint16_t *place);

/*
 * Judges a routine by its ticket and its image.
 * JUGROND_ACCEPTED: *entry is its entry, *home its home, *cost its certified cycles, *stack its stack bytes; *place is
 * not written.
 * 1 to 20, or 29, the number of the first cause for which it is refused: *place is that cause's place (for 1 to 8 and
 * 29 an offset in the ticket, for 9 it is 0, for 10 to 20 an address); *entry, *home, *cost and *stack stay.
 * An accepted routine that is started as jugrond_start does, and run with its home, comes home within *cost cycles,
 * whatever the data.
 */
uint32_t jugrond_verdict(const uint8_t *ticket, size_t ticket_length, const uint8_t *image, size_t image_length,
                         uint16_t *entry, uint16_t *home, uint32_t *cost, uint16_t *stack, uint32_t *place);

/*
 * Judges a routine and, where it is accepted, starts it: the image goes to the code window, home to the last two bytes
 * of the stack window, high byte first, SP below them, the lowest SP the same, and PC to the entry. A, B, X, Y, flags
 * and every other byte of memory stay as they are lent. jugrond_run, given *home, then brings it home, where its budget
 * covers the certified cycles.
 * JUGROND_ACCEPTED: registers and memory are the start, *home is its home; *place is not written.
 * JUGROND_BAD_LENGTH, looked at first: *place is 0. 1 to 20, or 29, as jugrond_verdict: *place is the cause's place. In
 * both nothing else is written: *home, every register byte and every byte of memory stay.
 */
uint32_t jugrond_start(const uint8_t *ticket, size_t ticket_length, const uint8_t *image, size_t image_length,
                       uint8_t *registers, size_t registers_length, uint8_t *memory, size_t memory_length,
                       uint16_t *home, uint32_t *place);

/*
 * Judges a routine once and, where it is accepted, fills a slot, from which it can be started again and again.
 * JUGROND_ACCEPTED: all 26 bytes of the slot are filled; *place is not written.
 * JUGROND_BAD_LENGTH, looked at first: *place is 0. 1 to 20, or 29, as jugrond_verdict: *place is the cause's place. In
 * both nothing else is written: the slot keeps what it held.
 */
uint32_t jugrond_certify(const uint8_t *ticket, size_t ticket_length, const uint8_t *image, size_t image_length,
                         uint8_t *slot, size_t slot_length, uint32_t *place);

/*
 * Starts, without judging it, the routine that the slot was filled for: registers, memory and *home as jugrond_start
 * has them.
 * JUGROND_ACCEPTED: registers and memory are the start, *home is the slot's home; *place is not written.
 * JUGROND_BAD_LENGTH, slot, registers or memory, looked at first: *place is 0. JUGROND_BAD_IMAGE, the image's length is
 * not the slot's code length: *place is 0. In both nothing else is written: *home, every register byte and every byte
 * of memory stay.
 * From a slot that jugrond_certify filled for this image the routine comes home, as after jugrond_start. The image's
 * bytes are not looked at again: lend those that were judged.
 * Any 26 bytes are taken for a slot. Of others than jugrond_certify wrote nothing is promised but what is stored where:
 * the image, then home's two bytes, SP, the lowest SP and PC, by the slot's numbers, addresses wrapping. A slot of
 * zeros is refused with JUGROND_BAD_IMAGE, but for an image of no bytes.
 */
uint32_t jugrond_start_certified(const uint8_t *slot, size_t slot_length, const uint8_t *image, size_t image_length,
                                 uint8_t *registers, size_t registers_length, uint8_t *memory, size_t memory_length,
                                 uint16_t *home, uint32_t *place);

#ifdef __cplusplus
}
#endif

#endif

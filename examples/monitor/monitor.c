/*
 * A small press monitor: it judges a routine once, when it is loaded, keeps what a start needs in a slot, and starts
 * and runs the routine once a tick.
 *
 *     monitor IMAGE TICKET BUDGET...
 *
 * There is one tick for each budget, which is in cycles. Where a comment says so, a real monitor waits for its clock,
 * reads a sensor or drives an output.
 * The routine is expected to take a reading in A and to leave its output at $0040, as examples/p does.
 * Exit status: 0 each tick came home; 1 the routine was refused, or a tick did not come home; 2 bad usage, or a file
 * cannot be read.
 */
#include "jugrond.h"
#include "jugrond_text.h"

#include <errno.h>
#include <inttypes.h>
#include <stdbool.h>
#include <stdio.h>
#include <stdlib.h>

#define OUTPUT 0x0040

struct file {
    uint8_t bytes[65536]; /* the checking program takes as many */
    size_t length;
};

static struct file image, ticket;
static uint8_t slot[JUGROND_SLOT_BYTES];     /* filled when the routine is accepted */
static uint8_t memory[JUGROND_MEMORY_BYTES]; /* kept from tick to tick: the routine's data window with it */
static uint16_t lowest = UINT16_MAX;         /* the lowest SP of all ticks, for the service page */

static bool load(struct file *f, const char *name)
{
    FILE *in = fopen(name, "rb");
    bool whole;

    if (in == NULL)
        return false;
    f->length = fread(f->bytes, 1, sizeof f->bytes, in);
    whole = fgetc(in) == EOF && !ferror(in);
    fclose(in);
    return whole;
}

static bool budget_of(const char *word, uint32_t *budget)
{
    char *end;
    unsigned long long n;

    errno = 0;
    n = strtoull(word, &end, 10);
    *budget = (uint32_t)n;
    return *word >= '0' && *word <= '9' && *end == '\0' && errno == 0 && n <= UINT32_MAX;
}

/* A number in the slot, high byte first. */
static uint32_t in_slot(size_t offset, size_t bytes)
{
    uint32_t n = 0;

    for (size_t i = 0; i < bytes; i++)
        n = n << 8 | slot[offset + i];
    return n;
}

/* Judges the routine. Only an accepted one may be loaded; a refusal leaves the slot as it was. */
static bool judge(void)
{
    uint32_t place;
    uint32_t outcome =
        jugrond_certify(ticket.bytes, ticket.length, image.bytes, image.length, slot, sizeof slot, &place);

    if (outcome != JUGROND_ACCEPTED) {
        printf("refused: cause %" PRIu32 " at %" PRIu32 ": %s\n", outcome, place, jugrond_text(outcome));
        return false;
    }
    printf("accepted: entry $%04" PRIX32 ", at most %" PRIu32 " cycles and %" PRIu32 " stack bytes\n",
           in_slot(JUGROND_SLOT_ENTRY, 2), in_slot(JUGROND_SLOT_COST, 4), in_slot(JUGROND_SLOT_STACK_BYTES, 2));
    return true;
}

/* The service page: how much of the stack window the ticks so far have used. */
static void show_stack(void)
{
    uint32_t length = in_slot(JUGROND_SLOT_STACK_LENGTH, 2);
    uint32_t last = in_slot(JUGROND_SLOT_STACK, 2) + length - 1; /* the window's last address */

    printf("stack: lowest SP $%04" PRIX16 ", %" PRIu32 " bytes used, %" PRIu32 " certified, window of %" PRIu32 "\n",
           lowest, last - lowest, in_slot(JUGROND_SLOT_STACK_BYTES, 2), length);
}

/* How a tick ended: home, spent or a refusal, as jugrond.h numbers them. */
struct end {
    uint32_t outcome, cycles, place;
};

/* Each start sets the lowest SP anew, so the smallest of all ticks is kept here. */
static void note_lowest(const uint8_t *registers)
{
    uint16_t sp = (uint16_t)(registers[JUGROND_LOWEST_SP] << 8 | registers[JUGROND_LOWEST_SP + 1]);

    if (sp < lowest)
        lowest = sp;
}

/* Starts the routine afresh and runs it with the tick's budget. What a call does not answer stays 0 here. */
static struct end tick(uint8_t reading, uint32_t budget)
{
    uint8_t registers[JUGROND_REGISTER_BYTES];
    struct end e = {0, 0, 0};
    uint16_t home = 0, pc = 0;

    e.outcome = jugrond_reset(registers, sizeof registers);
    if (e.outcome != JUGROND_DONE)
        return e;
    registers[JUGROND_A] = reading;
    e.outcome = jugrond_start_certified(slot, sizeof slot, image.bytes, image.length, registers, sizeof registers,
                                        memory, sizeof memory, &home, &e.place);
    if (e.outcome != JUGROND_ACCEPTED)
        return e;
    e.outcome = jugrond_run(registers, sizeof registers, memory, sizeof memory, home, budget, &e.cycles, &pc);
    e.place = pc;
    note_lowest(registers);
    return e;
}

int main(int argc, char **argv)
{
    int status = EXIT_SUCCESS;
    uint8_t output = 0;

    if (argc < 4) {
        fputs("usage: monitor IMAGE TICKET BUDGET...\n", stderr);
        return 2;
    }
    if (!load(&image, argv[1]) || !load(&ticket, argv[2])) {
        fputs("monitor: a file cannot be read, or is longer than 65,536 bytes\n", stderr);
        return 2;
    }
    if (!judge())
        return EXIT_FAILURE;

    for (int i = 3; i < argc; i++) { /* here the clock is waited for */
        uint8_t reading = (uint8_t)(10 * (i - 2)); /* here a sensor is read */
        uint32_t budget;
        struct end e;

        if (!budget_of(argv[i], &budget)) {
            fprintf(stderr, "monitor: no budget: %s\n", argv[i]);
            return 2;
        }
        e = tick(reading, budget);
        switch (e.outcome) {
        case JUGROND_HOME: /* only now is the output whole */
            output = memory[OUTPUT];
            printf("tick %d: home after %" PRIu32 " cycles, output %d\n", i - 2, e.cycles, output);
            break;
        case JUGROND_SPENT:
            /* the budget was below the certified cycles: what stands in memory is half done, and the last output
               stays */
            printf("tick %d: spent after %" PRIu32 " cycles, output stays %d\n", i - 2, e.cycles, output);
            status = EXIT_FAILURE;
            break;
        case JUGROND_BAD_LENGTH:     /* a fault of this program */
        case JUGROND_BAD_IMAGE:      /* these cannot be: slot, image or memory was altered since it was judged */
        case JUGROND_NO_INSTRUCTION:
        case JUGROND_WAITS:
        default:
            printf("tick %d: stopped: cause %" PRIu32 " at %" PRIu32 ": %s\n", i - 2, e.outcome, e.place,
                   jugrond_text(e.outcome));
            return EXIT_FAILURE; /* here the press is brought to a safe state */
        }
        /* here the output is driven */
    }
    show_stack();
    return status;
}

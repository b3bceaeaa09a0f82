/*
 * Judges the example routines ramp and shared once, and starts and runs them on many inputs, each with the certified
 * cycles as its budget; compares what they leave with what their sources say that they compute. Every way must have the
 * lowest SP stored here, and the dearest take the cycles. Prints the number of runs, or the first difference; the exit
 * status tells.
 */
#include "jugrond.h"

#include "routines.h"

#include <inttypes.h>
#include <stdio.h>
#include <stdlib.h>
#include <string.h>

static uint8_t memory[JUGROND_MEMORY_BYTES], image[4096], slot[JUGROND_SLOT_BYTES];
static size_t image_length;
static uint32_t certified, dearest;
static int runs;

static size_t read_file(const char *name, uint8_t *bytes, size_t room)
{
    FILE *in = fopen(name, "rb");
    size_t length;

    if (in == NULL) {
        perror(name);
        exit(2);
    }
    length = fread(bytes, 1, room, in);
    fclose(in);
    return length;
}

static void certify(const char *image_name, const uint8_t *ticket, size_t length, uint8_t *to)
{
    uint32_t place;

    if (jugrond_certify(ticket, length, image, image_length, to, JUGROND_SLOT_BYTES, &place) != JUGROND_ACCEPTED) {
        printf("DIFFERENCE %s is not accepted\n", image_name);
        exit(1);
    }
}

/* As it is, and with a name at each mark: both fill the slot with the same bytes. */
static void judge(const char *image_name, const char *ticket_name)
{
    static uint8_t ticket[4096], named[2 * sizeof ticket];
    size_t ticket_length = read_file(ticket_name, ticket, sizeof ticket);
    uint8_t slot_named[JUGROND_SLOT_BYTES];

    image_length = read_file(image_name, image, sizeof image);
    dearest = 0;
    certify(image_name, ticket, ticket_length, slot);
    certify(image_name, named, with_names(ticket, ticket_length, named), slot_named);
    if (memcmp(slot, slot_named, sizeof slot) != 0) {
        printf("DIFFERENCE %s with names is certified otherwise\n", image_name);
        exit(1);
    }
    certified = slot_number(slot, JUGROND_SLOT_COST, 4);
}

/* Starts and runs as a tick does. Memory stays from run to run. */
static void check(const char *name, uint16_t output, int wanted, int lowest_wanted)
{
    uint8_t registers[JUGROND_REGISTER_BYTES];
    uint32_t outcome, cycles = 0, refused_at;
    int lowest;
    uint16_t home, place;

    if (jugrond_reset(registers, sizeof registers) != JUGROND_DONE ||
        jugrond_start_certified(slot, sizeof slot, image, image_length, registers, sizeof registers, memory,
                                sizeof memory, &home, &refused_at) != JUGROND_ACCEPTED) {
        printf("DIFFERENCE %s, run %d: not started\n", name, runs);
        exit(1);
    }
    outcome = jugrond_run(registers, sizeof registers, memory, sizeof memory, home, certified, &cycles, &place);
    lowest = registers[JUGROND_LOWEST_SP] << 8 | registers[JUGROND_LOWEST_SP + 1];
    if (cycles > dearest)
        dearest = cycles;
    if (outcome != JUGROND_HOME || memory[output] != wanted || lowest != lowest_wanted) {
        printf("DIFFERENCE %s, run %d: outcome %" PRIu32 ", output %d instead of %d, lowest SP %d instead of %d\n",
               name, runs, outcome, memory[output], wanted, lowest, lowest_wanted);
        exit(1);
    }
    runs++;
}

static void check_dearest(const char *name, uint32_t wanted)
{
    if (dearest != wanted) {
        printf("DIFFERENCE %s: dearest way %" PRIu32 " cycles instead of %" PRIu32 "\n", name, dearest, wanted);
        exit(1);
    }
}

static int least(int a, int b)
{
    return a < b ? a : b;
}

/* The drive goes a step of 4 towards the set point, and stays from 0 to 200. */
static int ramped(int measured, int setpoint, int drive)
{
    if (measured < setpoint)
        return least(drive + 4, 200);
    if (measured > setpoint)
        return drive < 4 ? 0 : drive - 4;
    return drive;
}

static int scaled(int reading)
{
    return least(reading + reading * 38 / 256, 255);
}

/* Both stack windows end at $01FF. ramp pushes nothing; shared uses all 6 bytes that are certified, on every way. */
int main(void)
{
    judge("examples/ramp/ramp.bin", "examples/ramp/ramp.tkt");
    for (int measured = 0; measured < 256; measured += 15)
        for (int setpoint = 0; setpoint < 256; setpoint += 5)
            for (int drive = 0; drive <= 200; drive++) {
                memory[0x40] = (uint8_t)measured;
                memory[0x41] = (uint8_t)setpoint;
                memory[0x42] = (uint8_t)drive;
                check("ramp", 0x42, ramped(measured, setpoint, drive), 0x01fd);
            }
    /* 2 below the certified cycles: after CLRA the drive is never clamped, but the rules ignore flags */
    check_dearest("ramp", 35);

    judge("examples/shared/shared.bin", "examples/shared/shared.tkt");
    for (int left = 0; left < 256; left++)
        for (int right = 0; right < 256; right++) {
            memory[0x50] = (uint8_t)left;
            memory[0x51] = (uint8_t)right;
            check("shared", 0x52, (scaled(left) + scaled(right)) / 2, 0x01f9);
        }
    check_dearest("shared", 99);
    printf("ok, %d runs\n", runs);
    return EXIT_SUCCESS;
}

/*
 * One call each of jugrond_certify, jugrond_start, jugrond_start_certified and jugrond_run, on the image and the ticket
 * that are named, for callgrind to count. Exit status: 0 where it was accepted, started twice and came home.
 */
#include "jugrond.h"
#include "load.h"

static uint8_t image[65536], ticket[65536], memory[JUGROND_MEMORY_BYTES];

int main(int count, char **names)
{
    uint8_t registers[JUGROND_REGISTER_BYTES], slot[JUGROND_SLOT_BYTES];
    size_t image_length, ticket_length;
    uint32_t place, cycles;
    uint16_t home, pc;

    if (count != 3 || jugrond_reset(registers, sizeof registers) != JUGROND_DONE)
        return 2;
    image_length = load(names[1], image);
    ticket_length = load(names[2], ticket);
    if (jugrond_certify(ticket, ticket_length, image, image_length, slot, sizeof slot, &place) != JUGROND_ACCEPTED)
        return 1;
    if (jugrond_start(ticket, ticket_length, image, image_length, registers, sizeof registers, memory, sizeof memory,
                      &home, &place) != JUGROND_ACCEPTED)
        return 1;
    if (jugrond_start_certified(slot, sizeof slot, image, image_length, registers, sizeof registers, memory,
                                sizeof memory, &home, &place) != JUGROND_ACCEPTED)
        return 1;
    return jugrond_run(registers, sizeof registers, memory, sizeof memory, home, UINT32_MAX, &cycles, &pc) ==
                   JUGROND_HOME
               ? 0
               : 1;
}

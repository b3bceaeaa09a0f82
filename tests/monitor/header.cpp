// The headers serve C++ too, included twice, and their calls link; what an empty std::vector hands over is taken.
#include "jugrond.h"
#include "jugrond.h"
#include "jugrond_text.h"
#include "jugrond_text.h"

#include <cstring>
#include <vector>

int main()
{
    static uint8_t registers[JUGROND_REGISTER_BYTES], memory[JUGROND_MEMORY_BYTES], slot[JUGROND_SLOT_BYTES];
    const uint8_t image[] = {0x39};
    const std::vector<uint8_t> nothing;
    uint32_t place = 1, cost = 1, cycles = 1;
    uint16_t entry = 1, home = 1, stack = 1, pc = 1;

    if (jugrond_reset(registers, sizeof registers) != JUGROND_DONE || registers[JUGROND_FLAGS] != 0xd0)
        return 1;
    // an empty ticket ends where its first command should stand
    if (jugrond_certify(nothing.data(), nothing.size(), nothing.data(), nothing.size(), slot, sizeof slot, &place) !=
            JUGROND_TICKET_CUT ||
        place != 0)
        return 1;
    if (jugrond_verdict(nothing.data(), nothing.size(), nothing.data(), nothing.size(), &entry, &home, &cost, &stack,
                        &place) != JUGROND_TICKET_CUT ||
        jugrond_start(nothing.data(), nothing.size(), nothing.data(), nothing.size(), registers, sizeof registers,
                      memory, sizeof memory, &home, &place) != JUGROND_TICKET_CUT ||
        home != 1)
        return 1;
    if (std::strlen(jugrond_text(JUGROND_TICKET_CUT)) == 0 || std::strlen(jugrond_text(JUGROND_BAD_HOME)) == 0)
        return 1;
    // the reset value has PC $0000: a run that is given that home is there
    if (jugrond_run(registers, sizeof registers, memory, sizeof memory, 0, 0, &cycles, &pc) != JUGROND_HOME ||
        cycles != 0 || pc != 1)
        return 1;
    place = 1;
    // a slot that was never filled is refused
    return jugrond_start_certified(slot, sizeof slot, image, sizeof image, registers, sizeof registers, memory,
                                   sizeof memory, &home, &place) == JUGROND_BAD_IMAGE && place == 0 && home == 1
               ? 0
               : 1;
}

/* Executes NUMBER instructions by the stepper's step and by the hand-written interpreter, and compares cycles,
   registers with all flags and the lowest SP, and memory after each one. */
#include "jugrond.h"
#include "state.h"
#include "switch.h"
#include <stdio.h>
#include <string.h>

int main(int count, char **words)
{
    uint32_t instructions, cycles;
    uint16_t place;
    struct state *ours = state_start(count, words, &instructions);
    static struct state plain;
    plain = *ours;
    for (uint32_t i = 1; i <= instructions; i++) {
        uint32_t answer = jugrond_step(ours->registers, sizeof ours->registers, ours->memory, sizeof ours->memory,
                                       &ours->cycles, &place);
        switch_run(plain.registers, plain.memory, STATE_HOME, ours->cycles, &cycles);
        plain.cycles = cycles;
        if (answer != JUGROND_DONE || memcmp(ours, &plain, sizeof plain) != 0) {
            fprintf(stderr, "%s: different after %u instructions\n", words[1], i);
            return 1;
        }
    }
    state_save(ours, words);
    return 0;
}

/* What the measured programs share: PROGRAM MIX NUMBER OUT starts from one state with the routine MIX at $8000 in an
   empty memory, and writes the state reached to OUT: registers (13 bytes), cycles (4 bytes, high byte first),
   memory. */
#ifndef STATE_H
#define STATE_H
#include <stdint.h>

enum { STATE_HOME = 0x0000 }; /* no mix comes there */

struct state {
    uint8_t registers[13]; /* A, B, X, Y, SP, PC, flags, the lowest SP, high byte first */
    uint8_t memory[65536];
    uint32_t cycles;
};

/* The start, and NUMBER in `number`. Ends the program where the arguments or the file are unfit. */
struct state *state_start(int count, char **words, uint32_t *number);
void state_save(const struct state *s, char **words);

#endif

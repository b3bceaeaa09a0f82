/* The hand-written interpreter that the stepper is measured against. Registers are 13 bytes: A, B, X, Y, SP, PC, flags,
   the lowest SP, high byte first. It is given home, as the stepper's run is. */
#ifndef SWITCH_H
#define SWITCH_H
#include <stdint.h>

enum { SWITCH_HOME = 0, SWITCH_SPENT = 1, SWITCH_REFUSED = 22 };

int switch_run(uint8_t regs[13], uint8_t mem[65536], uint16_t home, uint32_t budget, uint32_t *cycles);

#endif

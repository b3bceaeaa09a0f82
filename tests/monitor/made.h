/* Routines made up by chance, always the same ones: such that a verdict accepts, and changes of them. */
#ifndef MADE_H
#define MADE_H

#include "judged.h"

/* The next number below `limit`. */
uint32_t chance(uint32_t limit);

/* A routine of up to 24 instructions with forward branches and calls, each marked with the least cost and need; every
   other one says its home. */
void make_routine(struct judged *r);

/* Changes one thing: a claim, a mark, a byte of the image, the header. */
void change_routine(struct judged *r);

/* Changes a ticket of so many bytes, with room for two names more: a byte, its length, or names or a home put in.
   Answers its new length. */
size_t change_ticket(uint8_t *ticket, size_t length);

#endif

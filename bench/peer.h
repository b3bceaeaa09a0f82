/*
 * A second verdict, hand-written in C to the specification, with an index of the marks by code address; it shares no
 * code and no table with the proved one, which is measured against it (bench/verdict) and compared with it
 * (tests/monitor).
 * It answers as jugrond_verdict does: 0 with *entry, *home, *cost and *stack, or the number of a cause with *place;
 * what it does not answer stays as it was lent.
 */
#ifndef PEER_H
#define PEER_H
#include <stddef.h>
#include <stdint.h>

uint32_t peer_verdict(const uint8_t *ticket, size_t ticket_length, const uint8_t *image, size_t image_length,
                      uint16_t *entry, uint16_t *home, uint32_t *cost, uint16_t *stack, uint32_t *place);

/* The order in which the causes at a mark and those of the whole are tested: constant but where they are exchanged. */
enum { PEER_AT_A_MARK = 8, PEER_OF_THE_WHOLE = 3 };
#ifdef PEER_EXCHANGES
extern uint8_t peer_mark_order[PEER_AT_A_MARK], peer_whole_order[PEER_OF_THE_WHOLE];
#endif

#endif

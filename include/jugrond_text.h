/*
 * A line of text for each outcome of jugrond.h, for a log or a display. It is a small file of C beside the proved
 * library; its lines are those of docs/REFUSALS.md.
 */
#ifndef JUGROND_TEXT_H
#define JUGROND_TEXT_H

#include <stdint.h>

#ifdef __cplusplus
extern "C" {
#endif

/*
 * Never null: 0 and JUGROND_SPENT have a line too, and so has a number that no call answers. Without a full stop or a
 * line feed. It lasts as long as the program.
 */
const char *jugrond_text(uint32_t outcome);

#ifdef __cplusplus
}
#endif

#endif

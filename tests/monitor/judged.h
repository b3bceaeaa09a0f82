/* A routine to be judged: what its ticket says, as fields, and its image. */
#ifndef JUDGED_H
#define JUDGED_H

#include <stdbool.h>
#include <stddef.h>
#include <stdint.h>

struct window {
    uint16_t start, length;
};

struct mark {
    uint16_t address;
    uint32_t cost;
    uint16_t depth, need;
};

#define MOST_MARKS 4096
#define MOST_BYTES 4097 /* one more than a code window holds */

struct judged {
    struct window code, data, stack;
    uint16_t entry;
    uint32_t limit;
    bool says_home; /* whether the ticket does: where it does not, home is 0 */
    uint16_t home;
    struct mark marks[MOST_MARKS];
    size_t count;
    uint8_t image[MOST_BYTES];
    size_t length;
};

#define HEADER_BYTES 22 /* without home, which follows them */
#define HOME_BYTES 3
#define MARK_BYTES 11
#define MOST_TICKET_BYTES (HEADER_BYTES + HOME_BYTES + MOST_MARKS * MARK_BYTES + 1)

/* The ticket's bytes; answers how many. */
size_t ticket_of(const struct judged *r, uint8_t *bytes);

/* jugrond_verdict, or another that answers as it does. */
typedef uint32_t verdict_function(const uint8_t *ticket, size_t ticket_length, const uint8_t *image,
                                  size_t image_length, uint16_t *entry, uint16_t *home, uint32_t *cost,
                                  uint16_t *stack, uint32_t *place);

/* What a call leaves in the numbers that it is lent. */
struct answer {
    uint32_t outcome, cost, place;
    uint16_t entry, home, stack;
};

/* What the numbers hold before a call: no answer looks like it. */
extern const struct answer LENT;

struct answer answer_of(verdict_function *verdict, const uint8_t *ticket, size_t ticket_length, const uint8_t *image,
                        size_t image_length);
int same(const struct answer *a, const struct answer *b);
void print_answer(const char *name, const struct answer *a);

#endif

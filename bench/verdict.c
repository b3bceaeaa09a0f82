/* One call of a verdict, VERDICT, on the two files that are named, for callgrind to count. Prints what was answered. */
#include "jugrond.h"
#include "load.h"
#include "peer.h"

#include <inttypes.h>
#include <stdio.h>

static uint8_t image[65536], ticket[65536];

int main(int count, char **names)
{
    uint16_t entry = 0, home = 0, stack = 0;
    uint32_t cost = 0, place = 0, outcome;
    size_t image_length, ticket_length;

    if (count != 3)
        return 2;
    image_length = load(names[1], image);
    ticket_length = load(names[2], ticket);
    outcome = VERDICT(ticket, ticket_length, image, image_length, &entry, &home, &cost, &stack, &place);
    printf("%" PRIu32 " %" PRIu32 "\n", outcome, place);
    return outcome == JUGROND_ACCEPTED ? 0 : 1;
}

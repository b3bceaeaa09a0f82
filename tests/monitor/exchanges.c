/*
 * Whether the routines of verdicts.c hold the order of the causes: each two of 10 to 17, and of 18 to 20, are exchanged
 * in the order in which the verdict of bench/peer.c tests them, and some routine must be answered otherwise.
 * Two exchanges no ticket can show, as the two causes never apply to one instruction and stand side by side: 12 is of
 * direct and extended writes alone. Of 11 with 12, no instruction that is kept out writes so (it writes indexed, to the
 * stack, or nothing); of 12 with 13, none that writes so pulls or returns. The peer's opcode table is looked through
 * for one.
 * Prints for each exchange how many routines show it, and last the count; the exit status tells.
 */
#include "peer.h"
#include "peer_instructions.h"
#include "verdicts.h"

#include <stdbool.h>
#include <stdio.h>
#include <stdlib.h>

static int passed, failed;

static void check(bool holds, const char *what, int first, int second)
{
    if (holds) {
        passed++;
    } else {
        failed++;
        printf("FAILED: %s (%d, %d)\n", what, first, second);
    }
}

static bool kept_out_and_writes(const struct instruction *in)
{
    return in->kept_out && in->written > 0;
}

static bool writes_and_pulls(const struct instruction *in)
{
    return in->written > 0 && (in->pulled > 0 || in->flow == FLOW_RETURN);
}

static const struct {
    uint8_t first, second;
    bool (*both)(const struct instruction *);
} NEVER_SHOWN[] = {{11, 12, kept_out_and_writes}, {12, 13, writes_and_pulls}};

enum { NEVER = sizeof NEVER_SHOWN / sizeof NEVER_SHOWN[0] };

static bool can_be_shown(uint8_t first, uint8_t second)
{
    for (int i = 0; i < NEVER; i++)
        if (NEVER_SHOWN[i].first == first && NEVER_SHOWN[i].second == second)
            return false;
    return true;
}

static void swap(uint8_t *a, uint8_t *b)
{
    uint8_t c = *a;

    *a = *b;
    *b = c;
}

static void exchange_all(uint8_t *order, int count)
{
    for (int i = 0; i < count; i++)
        for (int j = i + 1; j < count; j++) {
            uint8_t first = order[i], second = order[j];
            int shown;

            swap(&order[i], &order[j]);
            shown = judge_routines(peer_verdict, NULL).failed;
            swap(&order[i], &order[j]);
            printf("%d and %d: %d\n", first, second, shown);
            check((shown > 0) == can_be_shown(first, second), "shown exactly where it can be", first, second);
        }
}

int main(void)
{
    check(judge_routines(peer_verdict, "the peer").failed == 0, "the routines in the order as it is", 0, 0);
    printf("Causes exchanged, and how many routines show it:\n");
    exchange_all(peer_mark_order, PEER_AT_A_MARK);
    exchange_all(peer_whole_order, PEER_OF_THE_WHOLE);
    for (int i = 0; i < NEVER; i++)
        for (int map = 0; map < MAPS; map++)
            for (int opcode = 0; opcode < 256; opcode++)
                if (NEVER_SHOWN[i].both(&INSTRUCTIONS[map][opcode]))
                    check(false, "an instruction to which both causes can apply: map and opcode", map, opcode);
    printf("%d passed, %d failed\n", passed, failed);
    return failed == 0 ? EXIT_SUCCESS : EXIT_FAILURE;
}

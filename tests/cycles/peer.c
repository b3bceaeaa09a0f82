/*
 * The second verdict's table of instructions in the words of docs/CYCLES.md: for each its place in the four opcode
 * maps, its length, its cycles and what the rules make of it.
 */
#include <stdio.h>
#include "peer_instructions.h"

static const char *const WAYS[] = {
    [FLOW_NEXT] = "goes on",
    [FLOW_BOTH] = "branches",
    [FLOW_TARGET] = "jumps",
    [FLOW_CALL] = "calls",
    [FLOW_RETURN] = "returns",
    [FLOW_UNKNOWN] = "goes nowhere known",
};

static void part(const char *what, unsigned bytes)
{
    if (bytes)
        printf(", %s %u", what, bytes);
}

static void row(int place, const struct instruction *i)
{
    printf("%d %u %u ", place, i->length, i->cycles);
    if (i->kept_out) {
        printf("kept out\n");
        return;
    }
    printf("%s", WAYS[i->flow]);
    part("pushes", i->pushed);
    part("pulls", i->pulled);
    part("writes", i->written);
    printf("\n");
}

int main(void)
{
    for (int place = 0; place < MAPS * 256; place++) {
        const struct instruction *i = &INSTRUCTIONS[place / 256][place % 256];
        if (i->length)
            row(place, i);
    }
}

/* The lines of docs/REFUSALS.md by number; tests/refusals compares them. */
#include "jugrond_text.h"

#include "jugrond.h"

const char *jugrond_text(uint32_t outcome)
{
    switch (outcome) {
    case JUGROND_DONE:
        return "done, home or accepted";
    case JUGROND_UNKNOWN_COMMAND:
        return "no command has this byte";
    case JUGROND_TICKET_CUT:
        return "the ticket ends where a command should stand, or inside a command's operands";
    case JUGROND_OUT_OF_ORDER:
        return "the command is out of order or repeated";
    case JUGROND_OUT_OF_RANGE:
        return "an operand is outside its range";
    case JUGROND_WINDOW_EDGE:
        return "a window runs past $FFFF, or code or stack starts at $0000";
    case JUGROND_WINDOWS_SHARE:
        return "a window shares an address with an earlier one";
    case JUGROND_MARK_OUTSIDE:
        return "a mark lies outside the code window";
    case JUGROND_AFTER_END:
        return "bytes stand after the end";
    case JUGROND_BAD_IMAGE:
        return "the image's length is not the code window's";
    case JUGROND_BAD_MARK:
        return "no instruction has these bytes, or it leaves the code window";
    case JUGROND_KEPT_OUT:
        return "the instruction is kept out: an indexed store, read-modify-write, CLR, BSET, BCLR, JMP or JSR; "
               "LDS, TXS, TYS; RTI, SWI, WAI, STOP, TEST";
    case JUGROND_WRITES_OUTSIDE:
        return "a write outside the data window";
    case JUGROND_BAD_PULL:
        return "it pulls more than the depth, or is RTS at a depth other than 0";
    case JUGROND_NOT_MARKED:
        return "an address that can come next is not marked: the following one, or the target of a branch, a jump "
               "or a call";
    case JUGROND_DEPTHS_DISAGREE:
        return "depths disagree: at a successor it is depth + pushed - pulled; 0 where a call leads; the same "
               "after a call";
    case JUGROND_COST_TOO_LOW:
        return "the cost is too low: cycles and the successor's cost; for a call both costs; 5 for RTS";
    case JUGROND_NEED_TOO_LOW:
        return "the need is too low: pushed - pulled + the successor's need; for a call 2 + the target's need, "
               "and the following one's";
    case JUGROND_BAD_ENTRY:
        return "the entry is not marked, or its depth is not 0";
    case JUGROND_OVER_LIMIT:
        return "the entry's cost is above the limit";
    case JUGROND_STACK_TOO_SMALL:
        return "the entry's need + 2 is above the stack window's length";
    case JUGROND_BAD_LENGTH:
        return "the memory does not have 65,536 bytes, a C call's registers not 13, or its slot not 26";
    case JUGROND_NO_INSTRUCTION:
        return "no instruction has the bytes at PC";
    case JUGROND_WAITS:
        return "the instruction at PC is WAI, STOP or TEST";
    case JUGROND_OUTPUT_TOO_SMALL:
        return "the output is too small";
    case JUGROND_BAD_RECORD:
        return "the line is malformed: no S0, S1, S5 or S9 with a count from 3 on, exactly the digits that it says "
               "and a line feed; an S5 or S9 with data; an S5 that does not count the S1 lines before it; a line "
               "after S9; or S9 is missing";
    case JUGROND_BAD_CHECKSUM:
        return "the line's checksum is wrong";
    case JUGROND_BAD_ADDRESS:
        return "a byte is outside the code window, given twice or never given";
    case JUGROND_BAD_HOME:
        return "home lies inside the code window";
    case JUGROND_SPENT:
        return "the budget does not cover the next instruction";
    default:
        return "no outcome of this library";
    }
}

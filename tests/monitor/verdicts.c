/*
 * Routines judged by a verdict: the specification's lines under "Further, run", each cause from 1 to 20, and 29, at a
 * known place, what is let in beside it, which of two causes is answered, windows at the ends of memory, homes, and the
 * largest ticket. What is expected stands beside each routine, by hand from the specification: the number of a cause
 * and its place, or entry, cost and stack, with the home that its ticket says, $0000 where it says none; the other
 * numbers stay as they are lent. Each is judged with a name at each mark too: the same is expected, but that an offset
 * counts the names before it.
 */
#include "verdicts.h"

#include "names.h"

#include <stdbool.h>
#include <stdio.h>
#include <string.h>

static verdict_function *verdict;
static const char *shown;
static struct tally tally;

static bool right(const char *name, const char *how, const struct judged *r, const uint8_t *bytes, size_t length,
                  struct answer wanted)
{
    struct answer got = answer_of(verdict, bytes, length, r->image, r->length);

    if (same(&got, &wanted))
        return true;
    if (shown != NULL) {
        printf("DIFFERENCE by %s%s, ", shown, how);
        print_answer(name, &got);
    }
    return false;
}

/* With room for a byte after the end, or for two commands that are put in. */
static uint8_t ticket[MOST_TICKET_BYTES + 2 * MARK_BYTES];
static uint8_t named_ticket[sizeof ticket + MOST_MARKS * NAME_BYTES];

/* The ticket as it is, and with a name at each mark. */
static void judge(const char *name, const struct judged *r, const uint8_t *bytes, size_t length, struct answer wanted)
{
    size_t named_length = with_names(bytes, length, named_ticket);
    struct answer of_named = wanted;

    of_named.place = place_with_names(bytes, length, wanted.outcome, wanted.place);
    if (right(name, "", r, bytes, length, wanted) &&
        right(name, " with names", r, named_ticket, named_length, of_named))
        tally.passed++;
    else
        tally.failed++;
}

static struct answer acceptance(uint16_t entry, uint16_t home, uint32_t cost, uint16_t stack)
{
    return (struct answer){
        .outcome = 0, .entry = entry, .home = home, .cost = cost, .stack = stack, .place = LENT.place};
}

static struct answer refusal(uint32_t number, uint32_t place)
{
    struct answer a = LENT;

    a.outcome = number;
    a.place = place;
    return a;
}

static void accepted(const char *name, const struct judged *r, uint16_t entry, uint32_t cost, uint16_t stack)
{
    judge(name, r, ticket, ticket_of(r, ticket), acceptance(entry, r->home, cost, stack));
}

static void refused(const char *name, const struct judged *r, uint32_t number, uint32_t place)
{
    judge(name, r, ticket, ticket_of(r, ticket), refusal(number, place));
}

/* With another byte in the ticket. */
static void refused_with(const char *name, const struct judged *r, size_t at, uint8_t byte, uint32_t number,
                         uint32_t place)
{
    size_t length = ticket_of(r, ticket);

    ticket[at] = byte;
    judge(name, r, ticket, length, refusal(number, place));
}

/* With so many bytes of the ticket; one more than there are is a zero. */
static void refused_at_length(const char *name, const struct judged *r, size_t length, uint32_t number, uint32_t place)
{
    ticket[ticket_of(r, ticket)] = 0;
    judge(name, r, ticket, length, refusal(number, place));
}

/* An image as a string literal. */
#define IMAGE(bytes) bytes, sizeof(bytes) - 1

static void set_image(struct judged *r, const char *image, size_t length)
{
    memcpy(r->image, image, length);
    r->length = length;
}

static void set_mark(struct judged *r, size_t i, uint16_t address, uint32_t cost, uint16_t depth, uint16_t need)
{
    r->marks[i] = (struct mark){address, cost, depth, need};
}

/* Each of the following gives the one routine that there is, to be changed and judged. */
static struct judged *blank(const char *image, size_t length)
{
    static struct judged r;

    memset(&r, 0, sizeof r);
    set_image(&r, image, length);
    r.code = (struct window){0x8000, (uint16_t)length};
    r.data = (struct window){0x0040, 2};
    r.stack = (struct window){0x01f0, 5};
    r.entry = 0x8000;
    r.limit = 100;
    return &r;
}

#define MARK(address, cost, depth, need) ((struct mark){address, cost, depth, need})

static struct judged *marked_twice(const char *image, size_t length, struct mark first, struct mark second)
{
    struct judged *r = blank(image, length);

    r->count = 2;
    r->marks[0] = first;
    r->marks[1] = second;
    return r;
}

/* The same instructions in another code window, entered at its first address; the marks move with it, and no data
 * window is in the way. */
static struct judged *moved(struct judged *r, uint16_t start)
{
    for (size_t i = 0; i < r->count; i++)
        r->marks[i].address = (uint16_t)(r->marks[i].address - r->code.start + start);
    r->code.start = start;
    r->data.start = 0x4000;
    r->entry = start;
    return r;
}

/* An instruction alone, with more cycles and stack than it can need. */
static struct judged *alone(const char *image, size_t length)
{
    struct judged *r = blank(image, length);

    r->count = 1;
    set_mark(r, 0, 0x8000, 100, 0, 100);
    return r;
}

/* An instruction and an RTS at an address; the cost is that of both. */
static struct judged *returning(const char *image, size_t length, uint16_t rts, uint32_t cost)
{
    struct judged *r = blank(image, length);

    r->count = 2;
    set_mark(r, 0, 0x8000, cost, 0, 0);
    set_mark(r, 1, rts, 5, 0, 0);
    return r;
}

/* Two instructions of one byte and an RTS, with one byte pushed between them. */
static struct judged *pushing(const char *image, uint32_t first, uint32_t second)
{
    struct judged *r = blank(image, 3);

    r->count = 3;
    set_mark(r, 0, 0x8000, first, 0, 1);
    set_mark(r, 1, 0x8001, second, 1, 0);
    set_mark(r, 2, 0x8002, 5, 0, 0);
    return r;
}

static struct judged *p(void)
{
    struct judged *r = blank(IMAGE("\x36\xbd\x80\x08\x32\x39\x01\x01\x97\x40\x39"));

    r->data.length = 1;
    r->limit = 26;
    r->count = 6;
    set_mark(r, 0, 0x8000, 26, 0, 3);
    set_mark(r, 1, 0x8001, 23, 1, 2);
    set_mark(r, 2, 0x8004, 9, 1, 0);
    set_mark(r, 3, 0x8005, 5, 0, 0);
    set_mark(r, 4, 0x8008, 8, 0, 0);
    set_mark(r, 5, 0x800a, 5, 0, 0);
    return r;
}

/* P with another mark. */
static struct judged *p_but(size_t i, uint16_t address, uint32_t cost, uint16_t depth, uint16_t need)
{
    struct judged *r = p();

    set_mark(r, i, address, cost, depth, need);
    return r;
}

static struct judged *p_without(size_t i)
{
    struct judged *r = p();

    r->count--;
    memmove(&r->marks[i], &r->marks[i + 1], (r->count - i) * sizeof r->marks[0]);
    return r;
}

static struct judged *p_under(uint16_t data, uint16_t stack, uint16_t entry, uint32_t limit)
{
    struct judged *r = p();

    r->data.length = data;
    r->stack.length = stack;
    r->entry = entry;
    r->limit = limit;
    return r;
}

static void further(void)
{
    struct judged *r;

    accepted("P", p(), 0x8000, 26, 5);
    refused("P with a data window of 0 bytes", p_under(0, 5, 0x8000, 26), 12, 0x8008);
    r = p();
    r->code.length = 4096;
    r->length = 4096;
    accepted("P in a code window of 4,096 bytes", r, 0x8000, 26, 5);
    r->code.length = 4097;
    r->length = 4097;
    refused("P in a code window of 4,097 bytes", r, 4, 0);
    r = returning(IMAGE("\xdd\x40\x39"), 0x8002, 9);
    r->data.length = 1;
    refused("STD to the data window's last byte", r, 12, 0x8000);
}

/* P's ticket with names after its first mark, at 33 and 44. */
static void named(const char *name, size_t names, uint16_t address, char first, struct answer wanted)
{
    uint8_t command[MARK_BYTES] = {
        6, (uint8_t)(address >> 8), (uint8_t)address, (uint8_t)first, 'A', ' ', 'N', 'A', 'M', 'E', '~'};
    struct judged *r = p();
    size_t length = ticket_of(r, ticket), after = HEADER_BYTES + MARK_BYTES;

    memmove(ticket + after + names * MARK_BYTES, ticket + after, length - after);
    for (size_t i = 0; i < names; i++)
        memcpy(ticket + after + i * MARK_BYTES, command, MARK_BYTES);
    judge(name, r, ticket, length + names * MARK_BYTES, wanted);
}

static void names(void)
{
    named("P with a name", 1, 0x8000, ' ', acceptance(0x8000, 0x0000, 26, 5));
    named("a name with $7E", 1, 0x8000, 0x7e, acceptance(0x8000, 0x0000, 26, 5));
    named("two names at a mark", 2, 0x8000, ' ', refusal(3, 44));
    named("a name of another address", 1, 0x8001, ' ', refusal(3, 33));
    named("a name with $1F", 1, 0x8000, 0x1f, refusal(4, 33));
    named("a name with $7F", 1, 0x8000, 0x7f, refusal(4, 33));
    named("a name of another address with $7F", 1, 0x8001, 0x7f, refusal(3, 33));
}

/* P's ticket with a name at each mark and another byte, so many bytes of it. Its marks are from 22 on, 22 bytes each,
 * each name is 11 bytes after its mark, the end at 154. */
static void refused_named(const char *name, size_t at, uint8_t byte, size_t length, uint32_t number, uint32_t place)
{
    static uint8_t bytes[HEADER_BYTES + 6 * (MARK_BYTES + NAME_BYTES) + 2];
    struct judged *r = p();

    with_names(ticket, ticket_of(r, ticket), bytes);
    bytes[at] = byte;
    judge(name, r, bytes, length, refusal(number, place));
}

static void after_names(void)
{
    refused_named("names, an unknown command for the second mark", 44, 0xff, 155, 1, 44);
    refused_named("names, an unknown command for the end", 154, 0xff, 155, 1, 154);
    refused_named("names, no end", 154, 0x00, 154, 2, 154);
    refused_named("names, the last without its last byte", 154, 0x00, 153, 2, 143);
    refused_named("names, the last mark cut", 154, 0x00, 142, 2, 132);
    refused_named("names, a code window for the last mark", 132, 0x01, 155, 3, 132);
    refused_named("names, home for the second mark", 44, 0x07, 155, 3, 44);
    refused_named("names, the second mark's address the first's", 46, 0x00, 155, 3, 44);
    refused_named("names, the third of another address", 79, 0x05, 155, 3, 77);
    refused_named("names, a second one for the last mark", 132, 0x06, 155, 3, 132);
    refused_named("names, the last with $7F", 150, 0x7f, 155, 4, 143);
    refused_named("names, the second with $1F", 62, 0x1f, 155, 4, 55);
    refused_named("names, the last mark's cost out of range", 135, 0xff, 155, 4, 132);
    refused_named("names, the last mark past the code", 134, 0x0b, 155, 7, 132);
    refused_named("names, a byte after the end", 155, 0x00, 156, 8, 155);
}

/* P's ticket has its windows at 0, 5 and 10, its entry at 15, its marks from 22 on, 11 bytes each, and its end at 88.
 */
static void reading(void)
{
    struct judged *r;

    refused_with("an unknown first command", p(), 0, 0xff, 1, 0);
    refused_with("an unknown command for a mark", p(), 33, 0xff, 1, 33);
    refused_with("an unknown command for the end", p(), 88, 0xff, 1, 88);
    refused_at_length("no ticket", p(), 0, 2, 0);
    refused_at_length("P without its end", p(), 88, 2, 88);
    refused_at_length("P without its last mark's last byte", p(), 87, 2, 77);
    refused_with("a stack window second", p(), 5, 0x03, 3, 5);
    refused_with("the end before the entry", p(), 15, 0x00, 3, 15);
    refused_with("a code window for a mark", p(), 77, 0x01, 3, 77);
    refused_with("a name for the first mark", p(), 22, 0x06, 3, 22);
    refused("P with its first mark twice", p_but(1, 0x8000, 26, 0, 3), 3, 33);
    refused("P with falling marks", p_but(2, 0x8000, 26, 0, 3), 3, 44);
    refused("P with limit 0", p_under(1, 5, 0x8000, 0), 4, 15);
    refused("P with limit 2,000,001", p_under(1, 5, 0x8000, 2000001), 4, 15);
    refused("P with a data window of 8,193 bytes", p_under(8193, 5, 0x8000, 26), 4, 5);
    refused("P with a stack of 1", p_under(1, 1, 0x8000, 26), 4, 10);
    refused("P with a stack of 1,025", p_under(1, 1025, 0x8000, 26), 4, 10);
    refused("P with cost 2,000,001", p_but(5, 0x800a, 2000001, 0, 0), 4, 77);
    refused("P with depth 1,023", p_but(1, 0x8001, 23, 1023, 2), 4, 33);
    refused("P with need 1,023", p_but(0, 0x8000, 26, 0, 1023), 4, 22);
    r = p();
    r->code.start = 0;
    refused("code at $0000", r, 5, 0);
    r->code.start = 0xfff6;
    refused("code past $FFFF", r, 5, 0);
    r = p_under(2, 5, 0x8000, 26);
    r->data.start = 0xffff;
    refused("data past $FFFF", r, 5, 5);
    r = p();
    r->stack.start = 0;
    refused("stack at $0000", r, 5, 10);
    r->stack.start = 0xfffc;
    refused("stack past $FFFF", r, 5, 10);
    r->stack.start = 0xfffb;
    accepted("stack up to $FFFF", r, 0x8000, 26, 5);
    r = p();
    r->data.start = 0x800a;
    refused("data on code's last byte", r, 6, 5);
    r->data.start = 0x7fff;
    refused("data below code, P's STAA outside it", r, 12, 0x8008);
    r = p();
    r->stack.start = 0x003c;
    refused("stack's last byte on data", r, 6, 10);
    r->stack.start = 0x7ffc;
    refused("stack's last byte on code", r, 6, 10);
    r = returning(IMAGE("\x01\x39"), 0x8001, 7);
    r->data = (struct window){0x8001, 0};
    accepted("no data, its start in code", r, 0x8000, 7, 2);
    r->data.start = 0x01f2;
    accepted("no data, its start in the stack", r, 0x8000, 7, 2);
    refused("P with a mark past its code", p_but(5, 0x800b, 5, 0, 0), 7, 77);
    refused("P with a mark before its code", p_but(0, 0x7fff, 26, 0, 3), 7, 22);
    refused_at_length("P and a byte after its end", p(), 90, 8, 89);
}

static void images(void)
{
    struct judged *r = p();

    r->length = 10;
    refused("P without its last byte", r, 9, 0);
    r->length = 12;
    refused("P and a byte", r, 9, 0);
    r->length = 0;
    refused("no image", r, 9, 0);
    r = p();
    r->image[5] = 0x41;
    refused("P with $41 at $8005", r, 10, 0x8005);
    refused("$18 before a place without an instruction", alone(IMAGE("\x18\x00")), 10, 0x8000);
    refused("$18 at the window's end", alone(IMAGE("\x18")), 10, 0x8000);
    refused("STAA direct without its address", alone(IMAGE("\x97")), 10, 0x8000);
    refused("JSR extended without its last byte", alone(IMAGE("\xbd\x80")), 10, 0x8000);
    r = alone(IMAGE("\x39"));
    set_mark(r, 0, 0x8000, 5, 0, 0);
    accepted("RTS at the window's end", r, 0x8000, 5, 2);
}

static void forbidden(void)
{
    refused("STAA 0,X", alone(IMAGE("\xa7\x00")), 11, 0x8000);
    refused("STAB 0,Y", alone(IMAGE("\x18\xe7\x00")), 11, 0x8000);
    refused("STD 0,X", alone(IMAGE("\xed\x00")), 11, 0x8000);
    refused("STX 0,Y", alone(IMAGE("\xcd\xef\x00")), 11, 0x8000);
    refused("STY 0,X", alone(IMAGE("\x1a\xef\x00")), 11, 0x8000);
    refused("STS 0,X", alone(IMAGE("\xaf\x00")), 11, 0x8000);
    refused("NEG 0,X", alone(IMAGE("\x60\x00")), 11, 0x8000);
    refused("COM 0,X", alone(IMAGE("\x63\x00")), 11, 0x8000);
    refused("LSR 0,X", alone(IMAGE("\x64\x00")), 11, 0x8000);
    refused("ROR 0,X", alone(IMAGE("\x66\x00")), 11, 0x8000);
    refused("ASR 0,X", alone(IMAGE("\x67\x00")), 11, 0x8000);
    refused("ASL 0,X", alone(IMAGE("\x68\x00")), 11, 0x8000);
    refused("ROL 0,X", alone(IMAGE("\x69\x00")), 11, 0x8000);
    refused("DEC 0,X", alone(IMAGE("\x6a\x00")), 11, 0x8000);
    refused("INC 0,Y", alone(IMAGE("\x18\x6c\x00")), 11, 0x8000);
    refused("CLR 0,X", alone(IMAGE("\x6f\x00")), 11, 0x8000);
    refused("BSET 0,X", alone(IMAGE("\x1c\x00\x01")), 11, 0x8000);
    refused("BCLR 0,Y", alone(IMAGE("\x18\x1d\x00\x01")), 11, 0x8000);
    refused("JMP 0,X", alone(IMAGE("\x6e\x00")), 11, 0x8000);
    refused("JSR 0,Y", alone(IMAGE("\x18\xad\x00")), 11, 0x8000);
    refused("LDS immediate", alone(IMAGE("\x8e\x01\xf2")), 11, 0x8000);
    refused("LDS direct", alone(IMAGE("\x9e\x40")), 11, 0x8000);
    refused("LDS extended", alone(IMAGE("\xbe\x00\x40")), 11, 0x8000);
    refused("LDS 0,X", alone(IMAGE("\xae\x00")), 11, 0x8000);
    refused("TXS", alone(IMAGE("\x35")), 11, 0x8000);
    refused("TYS", alone(IMAGE("\x18\x35")), 11, 0x8000);
    refused("RTI", alone(IMAGE("\x3b")), 11, 0x8000);
    refused("SWI", alone(IMAGE("\x3f")), 11, 0x8000);
    refused("WAI", alone(IMAGE("\x3e")), 11, 0x8000);
    refused("STOP", alone(IMAGE("\xcf")), 11, 0x8000);
    refused("TEST", alone(IMAGE("\x00")), 11, 0x8000);
    accepted("TST 0,X", returning(IMAGE("\x6d\x00\x39"), 0x8002, 11), 0x8000, 11, 2);
    accepted("LDAA 0,Y", returning(IMAGE("\x18\xa6\x00\x39"), 0x8003, 10), 0x8000, 10, 2);
    accepted("BRSET 0,X to the next", returning(IMAGE("\x1e\x00\x01\x00\x39"), 0x8004, 12), 0x8000, 12, 2);
    accepted("TSX", returning(IMAGE("\x30\x39"), 0x8001, 8), 0x8000, 8, 2);
    accepted("STS direct", returning(IMAGE("\x9f\x40\x39"), 0x8002, 9), 0x8000, 9, 2);
}

/* The data window is $0040 and $0041. */
static void stores(void)
{
    accepted("STAA $41", returning(IMAGE("\x97\x41\x39"), 0x8002, 8), 0x8000, 8, 2);
    refused("STAA $42", returning(IMAGE("\x97\x42\x39"), 0x8002, 8), 12, 0x8000);
    refused("STAA $3F", returning(IMAGE("\x97\x3f\x39"), 0x8002, 8), 12, 0x8000);
    accepted("STD $40", returning(IMAGE("\xdd\x40\x39"), 0x8002, 9), 0x8000, 9, 2);
    refused("STD $41", returning(IMAGE("\xdd\x41\x39"), 0x8002, 9), 12, 0x8000);
    refused("STD $3F", returning(IMAGE("\xdd\x3f\x39"), 0x8002, 9), 12, 0x8000);
    refused("STX $FFFF, which wraps", returning(IMAGE("\xff\xff\xff\x39"), 0x8003, 10), 12, 0x8000);
    refused("CLR $0042", returning(IMAGE("\x7f\x00\x42\x39"), 0x8003, 11), 12, 0x8000);
    refused("INC $8000", returning(IMAGE("\x7c\x80\x00\x39"), 0x8003, 11), 12, 0x8000);
    refused("BSET $42", returning(IMAGE("\x14\x42\x01\x39"), 0x8003, 11), 12, 0x8000);
    accepted("BCLR $41", returning(IMAGE("\x15\x41\x01\x39"), 0x8003, 11), 0x8000, 11, 2);
    accepted("TST $0042, which only reads", returning(IMAGE("\x7d\x00\x42\x39"), 0x8003, 11), 0x8000, 11, 2);
}

static void pulls(void)
{
    struct judged *r;

    refused("PULA", returning(IMAGE("\x32\x39"), 0x8001, 9), 13, 0x8000);
    refused("INS", returning(IMAGE("\x31\x39"), 0x8001, 8), 13, 0x8000);
    refused("PSHA, PULX", pushing("\x36\x38\x39", 13, 10), 13, 0x8001);
    accepted("PSHA, INS", pushing("\x36\x31\x39", 11, 8), 0x8000, 11, 3);
    accepted("DES, PULA", pushing("\x34\x32\x39", 12, 9), 0x8000, 12, 3);
    r = returning(IMAGE("\x36\x39"), 0x8001, 8);
    set_mark(r, 0, 0x8000, 8, 0, 1);
    set_mark(r, 1, 0x8001, 5, 1, 0);
    refused("PSHA, RTS", r, 13, 0x8001);
}

static void unmarked(void)
{
    refused("P without the mark after its call", p_without(2), 14, 0x8001);
    refused("P without the mark that it calls", p_without(4), 14, 0x8001);
    refused("NOP at the window's end", alone(IMAGE("\x01")), 14, 0x8000);
    refused("BEQ to $8003, which is not marked", returning(IMAGE("\x27\x01\x39\x39"), 0x8002, 8), 14, 0x8000);
    refused("BEQ, next not marked", returning(IMAGE("\x27\x01\x39\x39"), 0x8003, 8), 14, 0x8000);
    refused("BRCLR to $8005, which is not marked", returning(IMAGE("\x13\x40\x01\x01\x39\x39"), 0x8004, 11), 14,
            0x8000);
    accepted("BRN, only next marked", returning(IMAGE("\x21\x01\x39\x39"), 0x8002, 8), 0x8000, 8, 2);
    accepted("BRA, only its target marked", returning(IMAGE("\x20\x01\x39\x39"), 0x8003, 8), 0x8000, 8, 2);
    accepted("JMP $8003, only its target marked", returning(IMAGE("\x7e\x80\x03\x39"), 0x8003, 8), 0x8000, 8, 2);
}

static void claims(void)
{
    struct judged *r;

    refused("P with depth 0 at $8001", p_but(1, 0x8001, 23, 0, 2), 15, 0x8000);
    refused("P with depth 1 where it calls", p_but(4, 0x8008, 8, 1, 0), 15, 0x8001);
    refused("P with depth 0 after its call", p_but(2, 0x8004, 9, 0, 0), 15, 0x8001);
    refused("P with depth 1 after its PULA", p_but(3, 0x8005, 5, 1, 0), 15, 0x8004);
    refused("P with cost 25 at its entry", p_but(0, 0x8000, 25, 0, 3), 16, 0x8000);
    refused("P with cost 22 at its call", p_but(1, 0x8001, 22, 1, 2), 16, 0x8001);
    refused("P with cost 8 at $8004", p_but(2, 0x8004, 8, 1, 0), 16, 0x8004);
    refused("P with cost 4 at its last RTS", p_but(5, 0x800a, 4, 0, 0), 16, 0x800a);
    accepted("BEQ to the next, cost 8", returning(IMAGE("\x27\x00\x39"), 0x8002, 8), 0x8000, 8, 2);
    refused("BEQ to the next, cost 7", returning(IMAGE("\x27\x00\x39"), 0x8002, 7), 16, 0x8000);
    r = alone(IMAGE("\x20\xfe"));
    set_mark(r, 0, 0x8000, 2000000, 0, 0);
    refused("BRA to itself", r, 16, 0x8000);
    refused("P with need 2 at its entry", p_but(0, 0x8000, 26, 0, 2), 17, 0x8000);
    refused("P with need 1 at its call", p_but(1, 0x8001, 23, 1, 1), 17, 0x8001);
    refused("P with need 3 after its call", p_but(2, 0x8004, 9, 1, 3), 17, 0x8001);
}

static void whole(void)
{
    struct judged *r;

    refused("P with its entry at $8002", p_under(1, 5, 0x8002, 26), 18, 0x8002);
    refused("P with its entry at $8001", p_under(1, 5, 0x8001, 26), 18, 0x8001);
    refused("P with its entry at $0000", p_under(1, 5, 0, 26), 18, 0);
    accepted("P with its entry at $8008", p_under(1, 5, 0x8008, 26), 0x8008, 8, 2);
    r = p();
    r->count = 0;
    refused("no mark", r, 18, 0x8000);
    refused("P with limit 25", p_under(1, 5, 0x8000, 25), 19, 0x8000);
    refused("P with a stack of 4", p_under(1, 4, 0x8000, 26), 20, 0x8000);
    refused("P with need 4 at its entry", p_but(0, 0x8000, 26, 0, 4), 20, 0x8000);
    accepted("P with a stack of 6", p_under(1, 6, 0x8000, 26), 0x8000, 26, 5);
}

/* BSR at $8000 to $8003, and two RTS: after it and there. */
static struct judged *bsr(uint32_t cost, uint16_t need)
{
    struct judged *r = blank(IMAGE("\x8d\x01\x39\x39"));

    r->count = 3;
    r->marks[0] = MARK(0x8000, cost, 0, need);
    r->marks[1] = MARK(0x8002, 5, 0, 0);
    r->marks[2] = MARK(0x8003, 5, 0, 0);
    return r;
}

static void calls(void)
{
    struct judged *r;

    accepted("BSR forwards", bsr(16, 2), 0x8000, 16, 4);
    refused("BSR, cost too low by 1", bsr(15, 2), 16, 0x8000);
    refused("BSR, need too low by 1", bsr(16, 1), 17, 0x8000);
    r = bsr(16, 2);
    r->marks[1].depth = 1;
    refused("BSR, depth 1 after it", r, 15, 0x8000);
    r = bsr(16, 2);
    r->marks[2].depth = 1;
    refused("BSR, depth 1 where it calls", r, 15, 0x8000);
    r = bsr(16, 2);
    r->marks[1].need = 3;
    refused("BSR, need 3 after it", r, 17, 0x8000);
    r = bsr(16, 2);
    r->marks[2].need = 1;
    refused("BSR, need 1 where it calls", r, 17, 0x8000);
    r = bsr(16, 2);
    r->count = 2;
    refused("BSR, its target not marked", r, 14, 0x8000);
    r->marks[1] = MARK(0x8003, 5, 0, 0);
    refused("BSR, the address after it not marked", r, 14, 0x8000);

    r = blank(IMAGE("\x39\x8d\xfd\x39"));
    r->entry = 0x8001;
    r->count = 3;
    r->marks[0] = MARK(0x8000, 5, 0, 0);
    r->marks[1] = MARK(0x8001, 16, 0, 2);
    r->marks[2] = MARK(0x8003, 5, 0, 0);
    accepted("BSR backwards", r, 0x8001, 16, 4);
    r->marks[1].cost = 15;
    refused("BSR backwards, cost too low by 1", r, 16, 0x8001);

    accepted("BSR to the next", marked_twice(IMAGE("\x8d\x00\x39"), MARK(0x8000, 16, 0, 2), MARK(0x8002, 5, 0, 0)),
             0x8000, 16, 4);
    refused("BSR to the next, cost of one way",
            marked_twice(IMAGE("\x8d\x00\x39"), MARK(0x8000, 11, 0, 2), MARK(0x8002, 5, 0, 0)), 16, 0x8000);
    refused("BSR to itself", marked_twice(IMAGE("\x8d\xfe\x39"), MARK(0x8000, 2000000, 0, 100), MARK(0x8002, 5, 0, 0)),
            16, 0x8000);

    r = blank(IMAGE("\x36\x8d\x02\x32\x39\x39"));
    r->count = 5;
    r->marks[0] = MARK(0x8000, 23, 0, 3);
    r->marks[1] = MARK(0x8001, 20, 1, 2);
    r->marks[2] = MARK(0x8003, 9, 1, 0);
    r->marks[3] = MARK(0x8004, 5, 0, 0);
    r->marks[4] = MARK(0x8005, 5, 0, 0);
    accepted("BSR with a byte pushed", r, 0x8000, 23, 5);
}

/* JSR direct at the window's first address, an RTS and the RTS that it calls. */
static struct judged *jsr_direct(const char *image, uint16_t start, uint32_t cost)
{
    struct judged *r = blank(image, 4);

    r->count = 3;
    r->marks[0] = MARK(0x8000, cost, 0, 2);
    r->marks[1] = MARK(0x8002, 5, 0, 0);
    r->marks[2] = MARK(0x8003, 5, 0, 0);
    return moved(r, start);
}

/* With home written in its ticket, at 22; its marks are then from 25 on, and P's end is at 91. */
static struct judged *with_home(struct judged *r, uint16_t home)
{
    r->says_home = true;
    r->home = home;
    return r;
}

/* P's code window is $8000 to $800A, its data window $0040, its stack window $01F0 to $01F4. */
static void homes(void)
{
    struct judged *r;

    accepted("home $FFFF", with_home(p(), 0xffff), 0x8000, 26, 5);
    accepted("home $1234", with_home(p(), 0x1234), 0x8000, 26, 5);
    accepted("home in the data window", with_home(p(), 0x0040), 0x8000, 26, 5);
    accepted("home at the stack window's first byte", with_home(p(), 0x01f0), 0x8000, 26, 5);
    accepted("home at its own first byte", with_home(p(), 0x01f3), 0x8000, 26, 5);
    accepted("home at the stack window's last byte", with_home(p(), 0x01f4), 0x8000, 26, 5);
    accepted("P without home", p(), 0x8000, 26, 5);
    accepted("P with home $0000 written out", with_home(p(), 0x0000), 0x8000, 26, 5);
    accepted("home below the code window", with_home(p(), 0x7fff), 0x8000, 26, 5);
    refused("home at the code window's first byte", with_home(p(), 0x8000), 29, 22);
    refused("home in the code window, not marked", with_home(p(), 0x8006), 29, 22);
    refused("home at the code window's last byte", with_home(p(), 0x800a), 29, 22);
    accepted("home past the code window", with_home(p(), 0x800b), 0x8000, 26, 5);
    r = p();
    r->code.length = 4096;
    r->length = 4096;
    refused("home at the last of 4,096 bytes", with_home(r, 0x8fff), 29, 22);
    accepted("home past 4,096 bytes", with_home(r, 0x9000), 0x8000, 26, 5);
    r = moved(pushing("\x36\x32\x39", 12, 9), 0xfffd);
    refused("code up to $FFFF, home there", with_home(r, 0xffff), 29, 22);
    accepted("code up to $FFFF, home $0000", with_home(r, 0x0000), 0xfffd, 12, 3);
    accepted("code up to $FFFF, home below it", with_home(r, 0xfffc), 0xfffd, 12, 3);
    r = moved(pushing("\x36\x32\x39", 12, 9), 0x0001);
    refused("code at $0001, home there", with_home(r, 0x0001), 29, 22);
    accepted("code at $0001, home $0000", with_home(r, 0x0000), 0x0001, 12, 3);
    accepted("code at $0001, home past it", with_home(r, 0x0004), 0x0001, 12, 3);

    /* no instruction but RTS leads home */
    refused("JMP home", with_home(alone(IMAGE("\x7e\xff\xff")), 0xffff), 14, 0x8000);
    refused("NOP, after it home", with_home(alone(IMAGE("\x01")), 0x8001), 14, 0x8000);
    refused("JMP $0000 with home $FFFF", with_home(alone(IMAGE("\x7e\x00\x00")), 0xffff), 14, 0x8000);

    /* home elsewhere lets neither code nor stack start at $0000 */
    r = with_home(p(), 0xffff);
    r->code.start = 0;
    refused("code at $0000 with home $FFFF", r, 5, 0);
    r = with_home(p(), 0xffff);
    r->stack.start = 0;
    refused("stack at $0000 with home $FFFF", r, 5, 10);

    /* what comes after home has its place, and is judged as without it */
    refused("home, and a mark twice", with_home(p_but(1, 0x8000, 26, 0, 3), 0xffff), 3, 36);
    refused("home, and a mark past the code", with_home(p_but(5, 0x800b, 5, 0, 0), 0xffff), 7, 80);
    refused("home, and an entry not marked", with_home(p_under(1, 5, 0x8002, 26), 0xffff), 18, 0x8002);
    refused("home, and limit 25", with_home(p_under(1, 5, 0x8000, 25), 0xffff), 19, 0x8000);
    refused("home, and a stack of 4", with_home(p_under(1, 4, 0x8000, 26), 0xffff), 20, 0x8000);
    r = with_home(p(), 0xffff);
    r->count = 0;
    refused("home and no mark", r, 18, 0x8000);
}

/* The routine's ticket with a command put in at an offset. */
static void put_in(const char *name, const struct judged *r, size_t at, const char *command, size_t bytes,
                   struct answer wanted)
{
    size_t length = ticket_of(r, ticket);

    memmove(ticket + at + bytes, ticket + at, length - at);
    memcpy(ticket + at, command, bytes);
    judge(name, r, ticket, length + bytes, wanted);
}

#define COMMAND(bytes) bytes, sizeof(bytes) - 1
#define HOME_FFFF COMMAND("\x07\xff\xff")
#define HOME_IN_CODE COMMAND("\x07\x80\x00")
#define NAME_8000 COMMAND("\x06\x80\x00 A NAME~")
#define NAME_AND_HOME COMMAND("\x06\x80\x00 A NAME~\x07\xff\xff")

/* Home at once after the entry, else 3. Without home P's ticket has its marks from 22 on and its end at 88. */
static void order_of_home(void)
{
    put_in("home after the entry", p(), 22, HOME_FFFF, acceptance(0x8000, 0xffff, 26, 5));
    put_in("home first", p(), 0, HOME_FFFF, refusal(3, 0));
    put_in("home after the code window", p(), 5, HOME_FFFF, refusal(3, 5));
    put_in("home after the data window", p(), 10, HOME_FFFF, refusal(3, 10));
    put_in("home before the entry", p(), 15, HOME_FFFF, refusal(3, 15));
    put_in("home after a mark", p(), 33, HOME_FFFF, refusal(3, 33));
    put_in("home after the last mark", p(), 88, HOME_FFFF, refusal(3, 88));
    put_in("home after a name", p(), 33, NAME_AND_HOME, refusal(3, 44));
    put_in("home after the end", p(), 89, HOME_FFFF, refusal(8, 89));
    put_in("home twice", with_home(p(), 0xffff), 25, HOME_FFFF, refusal(3, 25));
    put_in("home, and again after a mark", with_home(p(), 0xffff), 36, HOME_FFFF, refusal(3, 36));
    put_in("home, and a name for it", with_home(p(), 0xffff), 25, COMMAND("\x06\xff\xff A NAME~"), refusal(3, 25));
    put_in("home, a mark and its name", with_home(p(), 0xffff), 36, NAME_8000, acceptance(0x8000, 0xffff, 26, 5));
    refused_with("home for the code window", p(), 0, 0x07, 3, 0);
    refused_with("home for the entry", p(), 15, 0x07, 3, 15);
    refused_with("home for a mark", p(), 33, 0x07, 3, 33);
    refused_with("the entry for home", with_home(p(), 0xffff), 22, 0x04, 3, 22);

    refused_at_length("home without its address", with_home(p(), 0xffff), 23, 2, 22);
    refused_at_length("home without its last byte", with_home(p(), 0xffff), 24, 2, 22);
    refused_at_length("nothing after home", with_home(p(), 0xffff), 25, 2, 25);
    refused_with("$08 for home", with_home(p(), 0xffff), 22, 0x08, 1, 22);
    refused_with("$FF for home", with_home(p(), 0xffff), 22, 0xff, 1, 22);

    judge("2 before 3: $07 alone", p(), (const uint8_t *)"\x07", 1, refusal(2, 0));
    put_in("2 before 3: home after the last mark, cut", p(), 88, COMMAND("\x07"), refusal(2, 88));
    refused_at_length("2 before 29: home in code, cut", with_home(p(), 0x8000), 24, 2, 22);
    put_in("3 before 29: home in code, before the entry", p(), 15, HOME_IN_CODE, refusal(3, 15));
    put_in("3 before 29: home in code, after a mark", p(), 33, HOME_IN_CODE, refusal(3, 33));
    put_in("3 before 29: home in code, the second", with_home(p(), 0xffff), 25, HOME_IN_CODE, refusal(3, 25));
    put_in("29 of the first home, before 3 of the second", with_home(p(), 0x8000), 25, HOME_FFFF, refusal(29, 22));
}

/* 29 comes after the causes of earlier commands, and before all that comes later. */
static void order_of_29(void)
{
    struct judged *r = with_home(p(), 0x8000);

    r->limit = 0;
    refused("4 of the entry before 29", r, 4, 15);
    r = with_home(p(), 0x8000);
    r->stack.start = 0x003c;
    refused("6 of the stack before 29", r, 6, 10);
    refused("29 before 3 of a mark", with_home(p_but(1, 0x8000, 26, 0, 3), 0x8000), 29, 22);
    refused("29 before 7 of a mark", with_home(p_but(5, 0x800b, 5, 0, 0), 0x8000), 29, 22);
    refused_at_length("29 before 2 of the end", with_home(p(), 0x8000), 91, 29, 22);
    refused_at_length("29 before 8", with_home(p(), 0x8000), 93, 29, 22);
    r = with_home(p(), 0x8000);
    r->length = 10;
    refused("29 before 9", r, 29, 22);
    r = with_home(p(), 0x8000);
    r->image[0] = 0x41;
    refused("29 before 10", r, 29, 22);
    refused("29 before 18", with_home(p_under(1, 5, 0x8002, 26), 0x8000), 29, 22);
}

/* Code windows that start at $0001, lie in page zero, or end at $FFFF. */
static void ends_of_memory(void)
{
    struct judged *r;

    accepted("code at $0001", moved(pushing("\x36\x32\x39", 12, 9), 0x0001), 0x0001, 12, 3);
    refused("code at $0001, RTS with a byte pushed", moved(pushing("\x36\x39\x39", 12, 9), 0x0001), 13, 0x0002);
    refused("BRA from $0001 to $0000", moved(alone(IMAGE("\x20\xfd")), 0x0001), 14, 0x0001);
    refused("BRA from $0001 to $FFFF", moved(alone(IMAGE("\x20\xfc")), 0x0001), 14, 0x0001);
    refused("BSR from $0001 to $FFFF", moved(returning(IMAGE("\x8d\xfc\x39"), 0x8002, 100), 0x0001), 14, 0x0001);
    refused("JMP $0000", moved(alone(IMAGE("\x7e\x00\x00")), 0x0001), 14, 0x0001);
    r = moved(returning(IMAGE("\x97\x00\x39"), 0x8002, 8), 0x0001);
    r->data = (struct window){0x0000, 1};
    accepted("STAA $00, data at $0000 below code", r, 0x0001, 8, 2);
    r->data = (struct window){0x0004, 1};
    refused("STAA $00, data above code", r, 12, 0x0001);

    accepted("JSR direct in page zero", jsr_direct("\x9d\x83\x39\x39", 0x0080, 15), 0x0080, 15, 4);
    refused("JSR direct, cost too low by 1", jsr_direct("\x9d\x83\x39\x39", 0x0080, 14), 16, 0x0080);
    accepted("JSR direct to $00FF", jsr_direct("\x9d\xff\x39\x39", 0x00fc, 15), 0x00fc, 15, 4);
    refused("JSR direct to $0000", jsr_direct("\x9d\x00\x39\x39", 0x00fc, 15), 14, 0x00fc);
    refused("JSR direct from page one", jsr_direct("\x9d\x83\x39\x39", 0x0180, 15), 14, 0x0180);
    r = jsr_direct("\x9d\x83\x39\x39", 0x0080, 15);
    r->marks[2].depth = 1;
    refused("JSR direct, depth 1 where it calls", r, 15, 0x0080);
    r = jsr_direct("\x9d\x83\x39\x39", 0x0080, 15);
    r->marks[0].need = 1;
    refused("JSR direct, need too low by 1", r, 17, 0x0080);
    refused("STAA into code in page zero", moved(returning(IMAGE("\x97\x80\x39"), 0x8002, 8), 0x0080), 12, 0x0080);

    r = alone(IMAGE("\x39"));
    set_mark(r, 0, 0x8000, 5, 0, 0);
    accepted("RTS alone at $FFFF", moved(r, 0xffff), 0xffff, 5, 2);
    accepted("code up to $FFFF", moved(pushing("\x36\x32\x39", 12, 9), 0xfffd), 0xfffd, 12, 3);
    refused("NOP at $FFFF, after it $0000", moved(alone(IMAGE("\x01")), 0xffff), 14, 0xffff);
    refused("BRA at $FFFE to $0000", moved(alone(IMAGE("\x20\x00")), 0xfffe), 14, 0xfffe);
    refused("BNE at $FFFE to itself, after it $0000", moved(alone(IMAGE("\x26\xfe")), 0xfffe), 14, 0xfffe);
    refused("BSR at $FFFE to $FFFD, after it $0000",
            moved(marked_twice(IMAGE("\x39\x8d\xfd"), MARK(0x8000, 5, 0, 0), MARK(0x8001, 100, 0, 9)), 0xfffd), 14,
            0xfffe);
    refused("LDAA immediate at $FFFF", moved(alone(IMAGE("\x86")), 0xffff), 10, 0xffff);
    refused("JSR extended at $FFFE", moved(alone(IMAGE("\xbd\xff")), 0xfffe), 10, 0xfffe);
    accepted("BRA at $FFFC to $FFFF", moved(returning(IMAGE("\x20\x01\x01\x39"), 0x8003, 8), 0xfffc), 0xfffc, 8, 2);
    refused("BEQ at $FFFC to $0000", moved(returning(IMAGE("\x27\x02\x39\x39"), 0x8002, 8), 0xfffc), 14, 0xfffc);
    r = returning(IMAGE("\xfd\xff\xfe\x39"), 0x8003, 10);
    r->data.start = 0xfffe;
    accepted("STD $FFFE, data up to $FFFF", r, 0x8000, 10, 2);
    r->image[2] = 0xff;
    refused("STD $FFFF, data up to $FFFF", r, 12, 0x8000);
    r->data.start = 0;
    refused("STD $FFFF, data from $0000", r, 12, 0x8000);
}

/* Of two successors either may be the one that is too dear, or has another depth. */
static void two_successors(void)
{
    struct judged *r = blank(IMAGE("\x27\x01\x39\x39"));

    r->count = 3;
    set_mark(r, 0, 0x8000, 12, 0, 4);
    set_mark(r, 1, 0x8002, 9, 0, 4);
    set_mark(r, 2, 0x8003, 9, 0, 4);
    r->stack.length = 6;
    accepted("BEQ", r, 0x8000, 12, 6);
    r->marks[1].cost = 10;
    refused("BEQ, its next too dear", r, 16, 0x8000);
    r->marks[1].need = 5;
    r->marks[1].cost = 9;
    refused("BEQ, its next needs more", r, 17, 0x8000);
    r->marks[1].need = 4;
    r->marks[1].depth = 1;
    refused("BEQ, its next at another depth", r, 15, 0x8000);
    r->marks[1].depth = 0;
    r->marks[2].cost = 10;
    refused("BEQ, its target too dear", r, 16, 0x8000);
    r->marks[2].cost = 9;
    r->marks[2].need = 5;
    refused("BEQ, its target needs more", r, 17, 0x8000);
    r->marks[2].need = 4;
    r->marks[2].depth = 1;
    refused("BEQ, its target at another depth", r, 15, 0x8000);
}

/* Two causes that apply: at one place the lower number is answered, else the earlier place. 10 never meets 13, nor
 * 12 either 11 or 13. */
static void order(void)
{
    struct judged *r = p();

    r->length = 0;
    refused_at_length("2 before 9", r, 88, 2, 88);
    refused_at_length("8 before 9", r, 90, 8, 89);
    r->limit = 25;
    refused("9 before 19", r, 9, 0);
    r = p();
    r->image[0] = 0x41;
    r->length = 10;
    refused("9 before 10", r, 9, 0);
    refused("the lower mark first", p_but(2, 0x8004, 8, 0, 0), 15, 0x8001);
    refused("marks before 18", p_under(0, 5, 0x8002, 25), 12, 0x8008);
}

static void order_of_10(void)
{
    struct judged *r;

    refused("10 before 11: LDS without its last byte", alone(IMAGE("\x8e\x01")), 10, 0x8000);
    refused("10 before 12: BSET $42 without its mask", alone(IMAGE("\x14\x42")), 10, 0x8000);
    refused("10 before 14: LDAA without its operand", alone(IMAGE("\x86")), 10, 0x8000);
    refused("10 before 15: JMP without its last byte",
            marked_twice(IMAGE("\x39\x7e\x80"), MARK(0x8000, 5, 0, 0), MARK(0x8001, 100, 1, 100)), 10, 0x8001);
    r = alone(IMAGE("\x86"));
    r->marks[0].cost = 0;
    refused("10 before 16: LDAA without its operand, cost 0", r, 10, 0x8000);
    r = alone(IMAGE("\xbd\x80"));
    r->marks[0].need = 0;
    refused("10 before 17: JSR without its last byte, need 0", r, 10, 0x8000);
}

static void order_of_11_and_12(void)
{
    refused("11 before 13: RTI, which pulls nine bytes", alone(IMAGE("\x3b")), 11, 0x8000);
    refused("11 before 14: LDS, next not marked", alone(IMAGE("\x8e\x01\xf2")), 11, 0x8000);
    refused("11 before 15: LDS", marked_twice(IMAGE("\x8e\x01\xf2\x39"), MARK(0x8000, 8, 0, 0), MARK(0x8003, 5, 1, 0)),
            11, 0x8000);
    refused("11 before 16: LDS", marked_twice(IMAGE("\x8e\x01\xf2\x39"), MARK(0x8000, 7, 0, 0), MARK(0x8003, 5, 0, 0)),
            11, 0x8000);
    refused("11 before 17: LDS", marked_twice(IMAGE("\x8e\x01\xf2\x39"), MARK(0x8000, 8, 0, 0), MARK(0x8003, 5, 0, 1)),
            11, 0x8000);
    refused("12 before 14: STAA $42, next not marked", alone(IMAGE("\x97\x42")), 12, 0x8000);
    refused("12 before 15: STAA $42", marked_twice(IMAGE("\x97\x42\x39"), MARK(0x8000, 8, 0, 0), MARK(0x8002, 5, 1, 0)),
            12, 0x8000);
    refused("12 before 16: STAA $42", marked_twice(IMAGE("\x97\x42\x39"), MARK(0x8000, 7, 0, 0), MARK(0x8002, 5, 0, 0)),
            12, 0x8000);
    refused("12 before 17: STAA $42", marked_twice(IMAGE("\x97\x42\x39"), MARK(0x8000, 8, 0, 0), MARK(0x8002, 5, 0, 1)),
            12, 0x8000);
}

static void order_of_13(void)
{
    struct judged *r;

    refused("13 before 14: PULA, next not marked", alone(IMAGE("\x32")), 13, 0x8000);
    refused("13 before 15: PULA", marked_twice(IMAGE("\x32\x39"), MARK(0x8000, 9, 0, 0), MARK(0x8001, 5, 0, 0)), 13,
            0x8000);
    r = alone(IMAGE("\x39"));
    set_mark(r, 0, 0x8000, 4, 1, 0);
    refused("13 before 16: RTS", r, 13, 0x8000);
    refused("13 before 17: PULA", marked_twice(IMAGE("\x32\x39"), MARK(0x8000, 9, 0, 0), MARK(0x8001, 5, 0, 2)), 13,
            0x8000);
}

/* BEQ at $8000, next $8002, to $8003. BSR at $8000, following address $8002, to $8003. */
static void order_of_14_to_16(void)
{
    refused("14 before 15: BEQ, next not marked",
            marked_twice(IMAGE("\x27\x01\x39\x39"), MARK(0x8000, 8, 0, 0), MARK(0x8003, 5, 1, 0)), 14, 0x8000);
    refused("14 before 15: BEQ, target not marked",
            marked_twice(IMAGE("\x27\x01\x39\x39"), MARK(0x8000, 8, 0, 0), MARK(0x8002, 5, 1, 0)), 14, 0x8000);
    refused("14 before 15: BSR, following address not marked",
            marked_twice(IMAGE("\x8d\x01\x39\x39"), MARK(0x8000, 16, 0, 2), MARK(0x8003, 5, 1, 0)), 14, 0x8000);
    refused("14 before 15: BSR, target not marked",
            marked_twice(IMAGE("\x8d\x01\x39\x39"), MARK(0x8000, 16, 0, 2), MARK(0x8002, 5, 1, 0)), 14, 0x8000);
    refused("14 before 16: BEQ", marked_twice(IMAGE("\x27\x01\x39\x39"), MARK(0x8000, 7, 0, 0), MARK(0x8003, 5, 0, 0)),
            14, 0x8000);
    refused("14 before 17: BEQ", marked_twice(IMAGE("\x27\x01\x39\x39"), MARK(0x8000, 8, 0, 0), MARK(0x8003, 5, 0, 1)),
            14, 0x8000);
    refused("15 before 16", p_but(1, 0x8001, 27, 0, 2), 15, 0x8000);
    refused("15 before 17", p_but(1, 0x8001, 23, 0, 3), 15, 0x8000);
    refused("16 before 17", p_but(1, 0x8001, 22, 1, 1), 16, 0x8001);
}

/* At $8001 P has cost 23, depth 1 and need 2. */
static void order_of_the_whole(void)
{
    refused("18 before 19", p_under(1, 5, 0x8001, 22), 18, 0x8001);
    refused("18 before 20", p_under(1, 3, 0x8001, 26), 18, 0x8001);
    refused("19 before 20", p_under(1, 4, 0x8000, 25), 19, 0x8000);
}

/* 4,095 NOPs and an RTS, each marked; the code window may end at $FFFF. With home, and judged with names, the longest
 * ticket. */
static void largest(void)
{
    static char nops[4096];
    struct judged *r;

    memset(nops, 0x01, sizeof nops);
    nops[4095] = 0x39;
    r = blank(nops, sizeof nops);
    r->limit = 8195;
    r->count = 4096;
    for (uint16_t i = 0; i < 4096; i++)
        set_mark(r, i, (uint16_t)(0x8000 + i), (4095u - i) * 2 + 5, 0, 0);
    accepted("4,096 marks", r, 0x8000, 8195, 2);
    accepted("4,096 marks and home", with_home(r, 0x7fff), 0x8000, 8195, 2);
    refused("4,096 marks and home at the last", with_home(r, 0x8fff), 29, 22);
    r->says_home = false;
    r->home = 0;
    accepted("4,096 marks up to $FFFF", moved(r, 0xf000), 0xf000, 8195, 2);
    set_mark(r, 4094, 0xfffe, 6, 0, 0);
    refused("4,096 marks, 6 at the last NOP", r, 16, 0xfffe);
    set_mark(r, 4094, 0xfffe, 7, 0, 0);
    r->image[4095] = 0x01;
    refused("4,096 marks, NOP at $FFFF", r, 14, 0xffff);
}

struct tally judge_routines(verdict_function *by, const char *name)
{
    verdict = by;
    shown = name;
    tally = (struct tally){0, 0};
    further();
    names();
    after_names();
    reading();
    images();
    forbidden();
    stores();
    pulls();
    unmarked();
    claims();
    two_successors();
    calls();
    ends_of_memory();
    homes();
    order_of_home();
    order_of_29();
    whole();
    order();
    order_of_10();
    order_of_11_and_12();
    order_of_13();
    order_of_14_to_16();
    order_of_the_whole();
    largest();
    return tally;
}

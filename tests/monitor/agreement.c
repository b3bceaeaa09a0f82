/*
 * The library's verdict and the second one, bench/peer.c, must agree: on each place of the opcode maps with claims
 * around the least that are accepted, and on routines made up by chance, some of them then changed; all are the same in
 * every run. Each outcome from 0 to 20, and 29, must occur, and acceptances with a home that is not $0000. What is
 * accepted must be accepted with a name at each mark too. An argument gives another number of made-up routines.
 * Prints a line for each difference, how often each outcome occurred, and last the count; the exit status tells.
 */
#include "jugrond.h"
#include "made.h"
#include "names.h"
#include "peer.h"

#include <stdbool.h>
#include <stdio.h>
#include <stdlib.h>
#include <string.h>

static const uint32_t OUTCOMES[] = {0,  1,  2,  3,  4,  5,  6,  7,  8,  9,  10,
                                    11, 12, 13, 14, 15, 16, 17, 18, 19, 20, 29};
enum { OUTCOME_COUNT = sizeof OUTCOMES / sizeof OUTCOMES[0] };

static int passed, failed;
static int occurred[30], with_home; /* by outcome; and acceptances with a home that is not $0000 */

static bool agrees(const uint8_t *ticket, size_t length, const struct judged *r, const struct answer *peers)
{
    struct answer ours = answer_of(jugrond_verdict, ticket, length, r->image, r->length);

    if (same(&ours, peers))
        return true;
    if (failed >= 10)
        return false;
    print_answer("DIFFERENCE, the library", &ours);
    print_answer("              the peer", peers);
    for (size_t i = 0; i < length && i < 400; i++)
        printf("%02X%s", ticket[i], i + 1 < length ? "" : "\n");
    for (size_t i = 0; i < r->length && i < 200; i++)
        printf("%02X%s", r->image[i], i + 1 < r->length ? "" : "\n");
    return false;
}

/* What is accepted has the same answer with a name at each mark. */
static bool agrees_with_names(const uint8_t *ticket, size_t length, const struct judged *r, const struct answer *peers)
{
    static uint8_t named[MOST_TICKET_BYTES + (MOST_MARKS + 2) * NAME_BYTES];

    return peers->outcome != 0 || agrees(named, with_names(ticket, length, named), r, peers);
}

static void compare(const uint8_t *ticket, size_t length, const struct judged *r)
{
    struct answer peers = answer_of(peer_verdict, ticket, length, r->image, r->length);

    occurred[peers.outcome]++;
    with_home += peers.outcome == 0 && peers.home != 0;
    if (agrees(ticket, length, r, &peers) && agrees_with_names(ticket, length, r, &peers))
        passed++;
    else
        failed++;
}

static void compare_routine(const struct judged *r)
{
    static uint8_t ticket[MOST_TICKET_BYTES];

    compare(ticket, ticket_of(r, ticket), r);
}

/* ---- each place of the opcode maps */

/* Takes a claim through its values; where the peer's answer changes, both verdicts are asked on both sides. */
static void search_edges(struct judged *r, void (*set)(struct judged *, uint16_t), uint16_t from, uint16_t to)
{
    static uint8_t ticket[MOST_TICKET_BYTES];
    struct answer before, now;

    for (uint16_t v = from; v <= to; v++) {
        set(r, v);
        now = answer_of(peer_verdict, ticket, ticket_of(r, ticket), r->image, r->length);
        if (v > from && !same(&before, &now)) {
            compare_routine(r);
            set(r, (uint16_t)(v - 1));
            compare_routine(r);
        }
        before = now;
    }
}

static void set_cost(struct judged *r, uint16_t v)
{
    r->marks[0].cost = v;
}

static void set_need(struct judged *r, uint16_t v)
{
    r->marks[0].need = v;
}

static void set_depth(struct judged *r, uint16_t v)
{
    r->marks[0].depth = v;
}

static void set_next_depth(struct judged *r, uint16_t v)
{
    r->marks[1].depth = v;
}

/* An instruction at $0080, RTS in the rest of 16 bytes; marked are its first byte, the byte at `next` and $0088. */
static void try_place(const uint8_t *bytes, size_t length, uint16_t next, uint16_t depth)
{
    static struct judged r;

    memset(r.image, 0x39, sizeof r.image);
    memcpy(r.image, bytes, length);
    r.length = 16;
    r.code = (struct window){0x0080, 16};
    r.data = (struct window){0x0040, 4};
    r.stack = (struct window){0x01f0, 100};
    r.entry = 0x0080;
    r.limit = 100;
    r.count = 3;
    r.marks[0] = (struct mark){0x0080, 80, depth, 40};
    r.marks[1] = (struct mark){(uint16_t)(0x0080 + next), 20, depth, 9};
    r.marks[2] = (struct mark){0x0088, 20, 0, 9};
    compare_routine(&r);
    search_edges(&r, set_depth, 0, 12);
    set_depth(&r, depth);
    search_edges(&r, set_next_depth, 0, 6);
    for (uint16_t next_depth = 0; next_depth <= 4; next_depth++) {
        set_next_depth(&r, next_depth);
        search_edges(&r, set_cost, 0, 80);
        set_cost(&r, 80);
        search_edges(&r, set_need, 0, 20);
        set_need(&r, 40);
    }
}

/* The instruction alone in a code window of its first bytes, which may be too few. */
static void try_at_end(const uint8_t *bytes, uint16_t length)
{
    static struct judged r;

    memcpy(r.image, bytes, length);
    r.length = length;
    r.code = (struct window){0x8000, length};
    r.data = (struct window){0x0040, 4};
    r.stack = (struct window){0x01f0, 100};
    r.entry = 0x8000;
    r.limit = 100;
    r.count = 1;
    r.marks[0] = (struct mark){0x8000, 80, 0, 40};
    compare_routine(&r);
}

/* The operands are such that each mode meets the marked $0088, both ends of the data window and what lies outside. */
static void try_opcode(int map, int opcode)
{
    static const uint8_t PREFIXES[] = {0x00, 0x18, 0x1a, 0xcd};
    static const uint8_t OPERANDS[][3] = {{0x00, 0x88, 0x04}, {0x88, 0x42, 0x03}, {0x00, 0x42, 0x03},
                                          {0x42, 0x01, 0x04}, {0x43, 0x02, 0x05}, {0x00, 0x43, 0xff},
                                          {0x06, 0x42, 0x00}, {0x00, 0x3f, 0xff}};

    for (size_t i = 0; i < sizeof OPERANDS / sizeof OPERANDS[0]; i++) {
        uint8_t all[5] = {PREFIXES[map], (uint8_t)opcode, OPERANDS[i][0], OPERANDS[i][1], OPERANDS[i][2]};
        uint8_t *bytes = map == 0 ? all + 1 : all, length = map == 0 ? 4 : 5;

        for (uint16_t next = 1; next <= 5; next++)
            try_place(bytes, length, next, (uint16_t)(i % 3));
        for (uint16_t end = 1; end <= length; end++)
            try_at_end(bytes, end);
    }
}

static void try_opcodes(void)
{
    for (int map = 0; map < 4; map++)
        for (int opcode = 0; opcode < 256; opcode++)
            try_opcode(map, opcode);
}

/* ---- routines made up by chance */

static void try_made(void)
{
    static struct judged r;
    static uint8_t ticket[MOST_TICKET_BYTES + 2 * NAME_BYTES];
    size_t length;

    make_routine(&r);
    for (uint32_t changes = chance(3); changes > 0; changes--)
        change_routine(&r);
    length = ticket_of(&r, ticket);
    if (chance(5) == 0)
        length = change_ticket(ticket, length);
    compare(ticket, length, &r);
}

int main(int count, char **words)
{
    long made = count > 1 ? strtol(words[1], NULL, 10) : 200000;

    try_opcodes();
    printf("%d at the places of the opcode maps\n", passed + failed);
    for (long i = 0; i < made; i++)
        try_made();
    for (int i = 0; i < OUTCOME_COUNT; i++) {
        printf("%u: %d, ", (unsigned)OUTCOMES[i], occurred[OUTCOMES[i]]);
        if (occurred[OUTCOMES[i]] == 0)
            failed++;
    }
    printf("accepted with another home: %d\n", with_home);
    if (with_home == 0)
        failed++;
    printf("%d passed, %d failed\n", passed, failed);
    return failed == 0 ? EXIT_SUCCESS : EXIT_FAILURE;
}

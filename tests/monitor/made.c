/* See made.h. */
#include "made.h"
#include "names.h"
#include "peer_instructions.h"

#include <stdbool.h>
#include <string.h>

/* Splitmix64. */
uint32_t chance(uint32_t limit)
{
    static uint64_t state;
    uint64_t z = state += 0x9e3779b97f4a7c15u;

    z = (z ^ z >> 30) * 0xbf58476d1ce4e5b9u;
    z = (z ^ z >> 27) * 0x94d049bb133111ebu;
    return (uint32_t)((z ^ z >> 31) % limit);
}

/* ---- a routine that is accepted */

enum { MOST_INSTRUCTIONS = 24, MOST_DEPTH = 6 };

struct line {
    const struct instruction *in;
    uint8_t map, opcode;
    uint16_t offset, depth;
    int next, target; /* other lines; -1 where there is none */
};

static struct line lines[MOST_INSTRUCTIONS + MOST_DEPTH + 1];
static int count;

static uint16_t depth_reached(void)
{
    const struct line *last;

    if (count == 0)
        return 0;
    last = &lines[count - 1];
    return (uint16_t)(last->depth + last->in->pushed - last->in->pulled);
}

static void add(uint8_t map, uint8_t opcode)
{
    struct line l = {.in = &INSTRUCTIONS[map][opcode], .map = map, .opcode = opcode, .next = -1, .target = -1};

    l.depth = depth_reached();
    if (count > 0)
        l.offset = (uint16_t)(lines[count - 1].offset + lines[count - 1].in->length);
    lines[count++] = l;
}

/* JSR direct reaches page zero only. */
static bool fits(const struct instruction *in, uint16_t depth)
{
    return in->length != 0 && !in->kept_out && in->pulled <= depth && depth + in->pushed <= MOST_DEPTH &&
           !(in->flow == FLOW_RETURN && depth != 0) && !(in->flow == FLOW_CALL && in->operand == DIRECT);
}

/* Every line goes on to later ones: a branch to one of its own depth, which the next has; a call to one of depth 0,
   which the last has. */
static void add_lines(void)
{
    int wanted = (int)chance(MOST_INSTRUCTIONS);

    count = 0;
    while (count < wanted) {
        uint8_t map = chance(3) == 0 ? (uint8_t)chance(MAPS) : PLAIN_MAP, opcode = (uint8_t)chance(256);

        if (fits(&INSTRUCTIONS[map][opcode], depth_reached()))
            add(map, opcode);
    }
    while (depth_reached() != 0)
        add(PLAIN_MAP, 0x31); /* INS */
    add(PLAIN_MAP, 0x39);     /* RTS */
    for (int i = 0; i < count; i++) {
        struct line *l = &lines[i];
        bool call = l->in->flow == FLOW_CALL;

        if (l->in->flow == FLOW_NEXT || l->in->flow == FLOW_BOTH || call)
            l->next = i + 1;
        if (l->in->flow == FLOW_TARGET || l->in->flow == FLOW_BOTH || call)
            do
                l->target = i + 1 + (int)chance((uint32_t)(count - i - 1));
            while (lines[l->target].depth != (call ? 0 : l->depth));
    }
}

static void place_windows(struct judged *r)
{
    uint16_t length = (uint16_t)(lines[count - 1].offset + 1);
    uint16_t starts[] = {0x8000, 0x0001, 0x0080, 0x0ff0, (uint16_t)(0x10000 - length)};

    r->code = (struct window){starts[chance(5)], length};
    r->data = (struct window){r->code.start == 0x0001 ? 0x00c0 : 0x0040, (uint16_t)(2 + chance(4))};
    r->stack = (struct window){0x0300, 2};
}

/* In the data or stack window, beside the code window, or far from all; none is in the code window. */
static void place_home(struct judged *r)
{
    uint16_t homes[] = {r->data.start,
                        (uint16_t)(r->stack.start + 1),
                        (uint16_t)(r->code.start - 1),
                        (uint16_t)(r->code.start + r->code.length),
                        0x0000,
                        0x4321};

    r->says_home = chance(2) == 0;
    r->home = r->says_home ? homes[chance(6)] : 0x0000;
}

static void put_bytes(struct judged *r, const struct line *l)
{
    static const uint8_t PREFIXES[MAPS] = {[MAP_18] = 0x18, [MAP_1A] = 0x1a, [MAP_CD] = 0xcd};
    uint8_t *bytes = r->image + l->offset, *operand = bytes + (l->map == PLAIN_MAP ? 1 : 2);
    uint16_t address = 0;

    for (int i = 0; i < l->in->length; i++)
        bytes[i] = (uint8_t)chance(256);
    bytes[0] = PREFIXES[l->map];
    operand[-1] = l->opcode;
    if (l->target >= 0)
        address = (uint16_t)(r->code.start + lines[l->target].offset);
    else if (l->in->written > 0)
        address = (uint16_t)(r->data.start + chance(r->data.length - l->in->written + 1u));
    switch (l->in->operand) {
    case DIRECT:
        operand[0] = (uint8_t)address;
        break;
    case EXTENDED:
        operand[0] = (uint8_t)(address >> 8);
        operand[1] = (uint8_t)address;
        break;
    case RELATIVE:
        bytes[l->in->length - 1] = (uint8_t)(lines[l->target].offset - l->offset - l->in->length);
        break;
    }
}

static uint32_t larger(uint32_t a, uint32_t b)
{
    return a > b ? a : b;
}

/* The least cost and need at a line, from those of later ones. */
static void put_mark(struct judged *r, int i)
{
    const struct line *l = &lines[i];
    struct mark none = {0}, *m = &r->marks[i];
    struct mark *next = l->next < 0 ? &none : &r->marks[l->next];
    struct mark *target = l->target < 0 ? &none : &r->marks[l->target];
    uint32_t need = larger(next->need, target->need) + l->in->pushed;

    *m = (struct mark){.address = (uint16_t)(r->code.start + l->offset), .depth = l->depth};
    if (l->in->flow == FLOW_CALL) {
        m->cost = l->in->cycles + next->cost + target->cost;
        m->need = (uint16_t)larger(next->need, target->need + 2u);
    } else {
        m->cost = l->in->cycles + larger(next->cost, target->cost);
        m->need = (uint16_t)(need > l->in->pulled ? need - l->in->pulled : 0);
    }
}

void make_routine(struct judged *r)
{
    int entry;

    add_lines();
    place_windows(r);
    place_home(r);
    r->length = r->code.length;
    r->count = (size_t)count;
    for (int i = count - 1; i >= 0; i--) {
        put_bytes(r, &lines[i]);
        put_mark(r, i);
    }
    do
        entry = (int)chance((uint32_t)count);
    while (lines[entry].depth != 0);
    r->entry = r->marks[entry].address;
    r->limit = r->marks[entry].cost;
    r->stack.length = (uint16_t)(r->marks[entry].need + 2);
}

/* ---- changes */

/* One more or one less, or now and then something else. */
static uint32_t near(uint32_t value)
{
    switch (chance(8)) {
    case 0:
        return chance(1030);
    case 1:
        return chance(70000);
    default:
        return chance(2) == 0 ? value + 1 : value - 1;
    }
}

static void change_claim(struct mark *m)
{
    switch (chance(4)) {
    case 0:
    case 1:
        m->cost = near(m->cost);
        break;
    case 2:
        m->depth = (uint16_t)near(m->depth);
        break;
    case 3:
        m->need = (uint16_t)near(m->need);
        break;
    }
}

static void change_header(struct judged *r)
{
    struct window *windows[] = {&r->code, &r->data, &r->stack}, *w = windows[chance(3)];

    switch (chance(7)) {
    case 0:
        w->start = (uint16_t)near(w->start);
        break;
    case 1:
        w->length = (uint16_t)near(w->length);
        break;
    case 2:
        r->data.start = (uint16_t)(w->start + chance(200) - 100);
        if (chance(3) == 0)
            r->data.length = 0;
        break;
    case 3:
        r->entry = (uint16_t)(chance(2) == 0 ? near(r->entry) : r->marks[chance((uint32_t)r->count)].address);
        break;
    case 4:
        r->limit = near(r->limit);
        break;
    case 5:
        r->stack.length = (uint16_t)near(r->stack.length);
        break;
    case 6: /* at a window's first address, its last, or beside it */
        r->says_home = true;
        r->home = (uint16_t)(w->start + (chance(2) == 0 ? 0 : w->length) - chance(2));
        break;
    }
}

static void drop(struct judged *r, size_t i)
{
    r->count--;
    memmove(&r->marks[i], &r->marks[i + 1], (r->count - i) * sizeof r->marks[0]);
}

void change_routine(struct judged *r)
{
    struct mark *m = &r->marks[chance((uint32_t)r->count)];
    size_t at = chance(2) == 0 ? chance(r->code.length + 1u) : (uint16_t)(m->address - r->code.start);

    switch (chance(12)) {
    default:
        change_claim(m);
        break;
    case 4:
    case 5:
    case 6:
        if (at < r->length)
            r->image[at] = (uint8_t)chance(256);
        break;
    case 7:
        if (r->count > 1)
            drop(r, (size_t)(m - r->marks));
        break;
    case 8:
        m->address = (uint16_t)near(m->address);
        break;
    case 9:
        r->length = near((uint32_t)r->length) % MOST_BYTES;
        break;
    case 10:
    case 11:
        change_header(r);
        break;
    }
}

/* A home where a command begins or ends: where it belongs, a second one, or out of order. */
static size_t put_home(uint8_t *ticket, size_t length)
{
    size_t from = marks_from(ticket, length), marks = (length - from - 1) / MARK_BYTES;
    size_t places[] = {0, 5, 15, HEADER_BYTES, from, from + MARK_BYTES * marks};
    uint8_t *home = ticket + places[chance(6)];

    memmove(home + HOME_BYTES, home, length - (size_t)(home - ticket));
    home[0] = 7;
    home[1] = (uint8_t)chance(256);
    home[2] = (uint8_t)chance(256);
    return length + HOME_BYTES;
}

/* A name may come to stand behind another. */
static size_t put_name(uint8_t *ticket, size_t length)
{
    size_t from = marks_from(ticket, length), marks = (length - from - 1) / MARK_BYTES;
    size_t after = from + MARK_BYTES * (1 + chance((uint32_t)marks));
    uint8_t *name = ticket + after;

    memmove(name + NAME_BYTES, name, length - after);
    memcpy(name, "\x06..TWICE 7~", NAME_BYTES);
    memcpy(name + 1, name - MARK_BYTES + 1, 2);
    if (chance(3) == 0)
        name[chance(NAME_BYTES)] = (uint8_t)chance(256);
    return length + NAME_BYTES;
}

size_t change_ticket(uint8_t *ticket, size_t length)
{
    size_t from = marks_from(ticket, length);

    switch (chance(6)) {
    case 0:
        ticket[chance((uint32_t)length)] = (uint8_t)chance(256);
        return length;
    case 1:
        return chance((uint32_t)length);
    case 2:
        ticket[length] = (uint8_t)chance(256);
        return length + 1;
    case 3:
        ticket[from + MARK_BYTES * chance((uint32_t)(length - from) / MARK_BYTES)] = (uint8_t)chance(9);
        return length;
    case 4:
        return put_home(ticket, length);
    default:
        return chance(4) == 0 ? put_name(ticket, put_name(ticket, length)) : put_name(ticket, length);
    }
}

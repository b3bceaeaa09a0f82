/* A second verdict: see peer.h. The ticket is read into a list of marks with an index by code address; then each mark
   is judged in turn. */
#include "peer.h"
#include "peer_instructions.h"

#include <stdbool.h>
#include <string.h>

enum { END, CODE, DATA, STACK, ENTRY, MARK, NAME, HOME, COMMANDS };
enum { MOST_CODE = 4096, MOST_CYCLES = 2000000, MOST_BYTES = 1022, NAME_BYTES = 8 };

struct window {
    uint32_t start, length;
};

struct mark {
    uint32_t cost;
    uint16_t address, depth, need;
};

struct routine {
    struct window windows[STACK + 1]; /* by command */
    uint32_t limit;
    uint16_t entry, home, count; /* home: 0 where the ticket does not say it */
    uint16_t index[MOST_CODE]; /* by code address: 0, or 1 + the number of its mark */
    struct mark marks[MOST_CODE];
};

struct refusal {
    uint32_t number, place; /* number 0: none */
};

static uint16_t word_at(const uint8_t *b)
{
    return (uint16_t)(b[0] << 8 | b[1]);
}

static uint32_t long_at(const uint8_t *b)
{
    return (uint32_t)word_at(b) << 16 | word_at(b + 2);
}

static bool holds(const struct window *w, uint32_t address)
{
    return address - w->start < w->length;
}

static bool share(const struct window *v, const struct window *w)
{
    return v->start < w->start + w->length && w->start < v->start + v->length && v->length != 0 && w->length != 0;
}

/* ---- reading */

static const uint8_t COMMAND_BYTES[COMMANDS] = {
    [END] = 1, [CODE] = 5, [DATA] = 5, [STACK] = 5, [ENTRY] = 7, [MARK] = 11, [NAME] = 11, [HOME] = 3};

/* The causes 4, 5 and 6 of a window, which is kept. */
static uint32_t read_window(struct routine *r, const uint8_t *bytes)
{
    static const struct {
        uint16_t least, most;
    } RANGE[] = {[CODE] = {1, MOST_CODE}, [DATA] = {0, 8192}, [STACK] = {2, 1024}};
    uint8_t which = bytes[0];
    struct window *w = &r->windows[which];

    *w = (struct window){word_at(bytes + 1), word_at(bytes + 3)};
    if (w->length < RANGE[which].least || w->length > RANGE[which].most)
        return 4;
    if (w->start + w->length > 65536 || (which != DATA && w->start == 0))
        return 5;
    for (int earlier = CODE; earlier < which; earlier++)
        if (share(w, &r->windows[earlier]))
            return 6;
    return 0;
}

static uint32_t read_entry(struct routine *r, const uint8_t *bytes)
{
    r->entry = word_at(bytes + 1);
    r->limit = long_at(bytes + 3);
    return r->limit < 1 || r->limit > MOST_CYCLES ? 4 : 0;
}

static uint32_t read_home(struct routine *r, const uint8_t *bytes)
{
    r->home = word_at(bytes + 1);
    return holds(&r->windows[CODE], r->home) ? 29 : 0;
}

/* The causes 3, 4 and 7 of a mark, which is kept. */
static uint32_t read_mark(struct routine *r, const uint8_t *bytes)
{
    struct mark m = {.address = word_at(bytes + 1),
                     .cost = long_at(bytes + 3),
                     .depth = word_at(bytes + 7),
                     .need = word_at(bytes + 9)};

    if (r->count != 0 && m.address <= r->marks[r->count - 1].address)
        return 3;
    if (m.cost > MOST_CYCLES || m.depth > MOST_BYTES || m.need > MOST_BYTES)
        return 4;
    if (!holds(&r->windows[CODE], m.address))
        return 7;
    r->marks[r->count++] = m;
    r->index[m.address - r->windows[CODE].start] = r->count;
    return 0;
}

static uint32_t read_name(const struct routine *r, const uint8_t *bytes, uint8_t before)
{
    if (before != MARK || word_at(bytes + 1) != r->marks[r->count - 1].address)
        return 3;
    for (int i = 3; i < 3 + NAME_BYTES; i++)
        if (bytes[i] < 0x20 || bytes[i] > 0x7E)
            return 4;
    return 0;
}

/* Whether a command may follow another; the first follows END. What else a mark and a name ask is asked of them. */
static bool may_follow(uint8_t before, uint8_t command)
{
    if (before < ENTRY)
        return command == before + 1;
    return command == HOME ? before == ENTRY : command == END || command > ENTRY;
}

static struct refusal read_ticket(struct routine *r, const uint8_t *ticket, size_t length)
{
    uint8_t command = END;
    size_t at = 0;

    r->count = 0;
    r->home = 0;
    do {
        uint8_t before = command;
        uint32_t number = 0;

        if (at == length)
            return (struct refusal){2, (uint32_t)at};
        command = ticket[at];
        if (command >= COMMANDS)
            return (struct refusal){1, (uint32_t)at};
        if (length - at < COMMAND_BYTES[command])
            return (struct refusal){2, (uint32_t)at};
        if (!may_follow(before, command))
            return (struct refusal){3, (uint32_t)at};
        switch (command) {
        case CODE:
        case DATA:
        case STACK:
            number = read_window(r, ticket + at);
            break;
        case ENTRY:
            number = read_entry(r, ticket + at);
            memset(r->index, 0, r->windows[CODE].length * sizeof r->index[0]);
            break;
        case HOME:
            number = read_home(r, ticket + at);
            break;
        case MARK:
            number = read_mark(r, ticket + at);
            break;
        case NAME:
            number = read_name(r, ticket + at, before);
            break;
        }
        if (number != 0)
            return (struct refusal){number, (uint32_t)at};
        at += COMMAND_BYTES[command];
    } while (command != END);
    return at < length ? (struct refusal){8, (uint32_t)at} : (struct refusal){0, 0};
}

/* ---- the rules at a mark */

/* A mark, its instruction, which successors that has, and the marks there: NULL where there is none. */
struct site {
    const struct mark *own, *next, *target;
    const struct instruction *instruction;
    bool has_next, has_target;
    bool leaves;      /* the code window */
    uint16_t address; /* of the write, the jump or the call */
};

static const struct mark *mark_at(const struct routine *r, uint16_t address)
{
    uint16_t i = holds(&r->windows[CODE], address) ? r->index[address - r->windows[CODE].start] : 0;

    return i == 0 ? NULL : &r->marks[i - 1];
}

/* The instruction that starts at these bytes, of which there are five, and where its opcode stands. */
static const struct instruction *decode(const uint8_t *bytes, const uint8_t **opcode)
{
    *opcode = bytes + 1;
    switch (bytes[0]) {
    case 0x18:
        return &INSTRUCTIONS[MAP_18][bytes[1]];
    case 0x1A:
        return &INSTRUCTIONS[MAP_1A][bytes[1]];
    case 0xCD:
        return &INSTRUCTIONS[MAP_CD][bytes[1]];
    }
    *opcode = bytes;
    return &INSTRUCTIONS[PLAIN_MAP][bytes[0]];
}

static struct site site_at(const struct routine *r, const uint8_t *image, const struct mark *own)
{
    size_t offset = own->address - r->windows[CODE].start, left = r->windows[CODE].length - offset;
    const uint8_t *bytes = image + offset, *opcode;
    uint8_t padded[5] = {0};
    const struct instruction *in;
    struct site s = {.own = own};
    uint16_t next;

    if (left < sizeof padded)
        bytes = memcpy(padded, bytes, left);
    s.instruction = in = decode(bytes, &opcode);
    s.leaves = in->length > left;
    next = (uint16_t)(own->address + in->length);
    switch (in->operand) {
    case DIRECT:
        s.address = opcode[1];
        break;
    case EXTENDED:
        s.address = word_at(opcode + 1);
        break;
    case RELATIVE:
        s.address = (uint16_t)(next + (int8_t)bytes[in->length - 1]);
        break;
    }
    s.has_next = in->flow == FLOW_NEXT || in->flow == FLOW_BOTH || in->flow == FLOW_CALL;
    s.has_target = in->flow == FLOW_TARGET || in->flow == FLOW_BOTH || in->flow == FLOW_CALL;
    if (s.has_next)
        s.next = mark_at(r, next);
    if (s.has_target)
        s.target = mark_at(r, s.address);
    return s;
}

/* Of a successor of an ordinary instruction. The target of a call starts at depth 0 under two bytes. */
static bool depth_differs(const struct site *s, const struct mark *m)
{
    return m != NULL && m->depth + s->instruction->pulled != s->own->depth + s->instruction->pushed;
}

static bool need_exceeds(const struct site *s, const struct mark *m)
{
    return m != NULL && m->need + s->instruction->pushed > s->own->need + s->instruction->pulled;
}

static uint32_t cost_of(const struct mark *m)
{
    return m == NULL ? 0 : m->cost;
}

static uint32_t least_cost(const struct site *s)
{
    uint32_t next = cost_of(s->next), target = cost_of(s->target);

    if (s->instruction->flow == FLOW_CALL)
        return s->instruction->cycles + next + target;
    return s->instruction->cycles + (next > target ? next : target);
}

/* Whether a cause from 10 to 17 applies. */
static inline bool applies(uint8_t cause, const struct routine *r, const struct site *s)
{
    const struct instruction *in = s->instruction;
    bool call = in->flow == FLOW_CALL;

    switch (cause) {
    case 10:
        return in->length == 0 || s->leaves;
    case 11:
        return in->kept_out;
    case 12:
        return (in->written > 0 && !holds(&r->windows[DATA], s->address)) ||
               (in->written > 1 && !holds(&r->windows[DATA], (uint16_t)(s->address + 1)));
    case 13:
        return in->flow == FLOW_RETURN ? s->own->depth != 0 : in->pulled > s->own->depth;
    case 14:
        return (s->has_next && s->next == NULL) || (s->has_target && s->target == NULL);
    case 15:
        return depth_differs(s, s->next) ||
               (call ? s->target != NULL && s->target->depth != 0 : depth_differs(s, s->target));
    case 16:
        return s->own->cost < least_cost(s);
    case 17:
        return need_exceeds(s, s->next) ||
               (call ? s->target != NULL && s->own->need < 2 + s->target->need : need_exceeds(s, s->target));
    }
    return false;
}

/* ---- the whole */

static inline bool whole_applies(uint8_t cause, const struct routine *r, const struct mark *entry)
{
    switch (cause) {
    case 18:
        return entry == NULL || entry->depth != 0;
    case 19:
        return entry != NULL && entry->cost > r->limit;
    case 20:
        return entry != NULL && entry->need + 2u > r->windows[STACK].length;
    }
    return false;
}

#ifdef PEER_EXCHANGES
#define ORDER
#else
#define ORDER static const
#endif
ORDER uint8_t peer_mark_order[PEER_AT_A_MARK] = {10, 11, 12, 13, 14, 15, 16, 17};
ORDER uint8_t peer_whole_order[PEER_OF_THE_WHOLE] = {18, 19, 20};

static struct refusal judge(const struct routine *r, const uint8_t *image, size_t image_length)
{
    const struct mark *entry = mark_at(r, r->entry);

    if (image_length != r->windows[CODE].length)
        return (struct refusal){9, 0};
    for (const struct mark *m = r->marks; m < r->marks + r->count; m++) {
        struct site s = site_at(r, image, m);

#pragma GCC unroll 8
        for (int i = 0; i < PEER_AT_A_MARK; i++)
            if (applies(peer_mark_order[i], r, &s))
                return (struct refusal){peer_mark_order[i], m->address};
    }
#pragma GCC unroll 3
    for (int i = 0; i < PEER_OF_THE_WHOLE; i++)
        if (whole_applies(peer_whole_order[i], r, entry))
            return (struct refusal){peer_whole_order[i], r->entry};
    return (struct refusal){0, 0};
}

uint32_t peer_verdict(const uint8_t *ticket, size_t ticket_length, const uint8_t *image, size_t image_length,
                      uint16_t *entry, uint16_t *home, uint32_t *cost, uint16_t *stack, uint32_t *place)
{
    struct routine r;
    struct refusal first = read_ticket(&r, ticket, ticket_length);

    if (first.number == 0)
        first = judge(&r, image, image_length);
    if (first.number == 0) {
        const struct mark *m = mark_at(&r, r.entry);

        *entry = r.entry;
        *home = r.home;
        *cost = m->cost;
        *stack = (uint16_t)(m->need + 2);
    } else {
        *place = first.place;
    }
    return first.number;
}

#include "routines.h"

#include <string.h>

#define MARK(low, cost, depth, need) 0x05, 0x80, low, 0, 0, 0, cost, 0, depth, 0, need

/* The byte past the end is none of P's. */
static const uint8_t p_ticket[P_TICKET_BYTES + 1] = {
    0x01, 0x80, 0x00, 0, 11, /* code window */
    0x02, 0x00, 0x40, 0, 1, /* data window */
    0x03, 0x01, 0xf0, 0, 5, /* stack window */
    0x04, 0x80, 0x00, 0, 0, 0, 26, /* entry and limit */
    MARK(0x00, 26, 0, 3), MARK(0x01, 23, 1, 2), MARK(0x04, 9, 1, 0), MARK(0x05, 5, 0, 0), MARK(0x08, 8, 0, 0),
    MARK(0x0a, 5, 0, 0), 0x00, 0x00};
static const uint8_t p_image[P_IMAGE_BYTES + 1] = {0x36, 0xbd, 0x80, 0x08, 0x32, 0x39,
                                                   0x01, 0x01, 0x97, 0x40, 0x39, 0x01};

/* The header's commands begin at 0, 5, 10 and 15, the marks at 22 and every 11 bytes after it, the end is at 88. Where
 * home is put in it stands at 22, and the rest follows three bytes later. */
#define WHOLE .ticket_length = P_TICKET_BYTES, .image_length = P_IMAGE_BYTES
#define WITH_HOME .ticket_length = P_TICKET_BYTES + HOME_BYTES, .image_length = P_IMAGE_BYTES

/* The slot of P, but for home. */
#define P_SLOT 0x80, 0x00, 0, 11, 0x00, 0x40, 0, 1, 0x01, 0xf0, 0, 5, 0x80, 0x00, 0, 0, 0, 26, 0, 0, 0, 26, 0, 5

const struct routine routines[] = {
    {"P", JUGROND_ACCEPTED, 0, WHOLE, .slot = {P_SLOT, 0x00, 0x00}},
    {"P with longer windows, entry $8008 and a high limit", JUGROND_ACCEPTED, 0, WHOLE,
     .ticket = {{9, 2}, {13, 0x01}, {14, 0x23}, {17, 0x08}, {19, 0x1d}, {20, 0x4c}},
     .slot = {0x80, 0x00, 0, 11, 0x00, 0x40, 0, 2, 0x01, 0xf0, 0x01, 0x23,
              0x80, 0x08, 0, 0x1d, 0x4c, 26, 0, 0, 0, 8, 0, 2, 0x00, 0x00}},
    {"P with home $0000", JUGROND_ACCEPTED, 0, WITH_HOME, .home = {7, 0x00, 0x00}, .slot = {P_SLOT, 0x00, 0x00}},
    {"P with home $1234", JUGROND_ACCEPTED, 0, WITH_HOME, .home = {7, 0x12, 0x34}, .slot = {P_SLOT, 0x12, 0x34}},
    {"P with home $FFFF", JUGROND_ACCEPTED, 0, WITH_HOME, .home = {7, 0xff, 0xff}, .slot = {P_SLOT, 0xff, 0xff}},
    {"P with home in its data window", JUGROND_ACCEPTED, 0, WITH_HOME, .home = {7, 0x00, 0x40},
     .slot = {P_SLOT, 0x00, 0x40}},
    {"P with home in its stack window", JUGROND_ACCEPTED, 0, WITH_HOME, .home = {7, 0x01, 0xf1},
     .slot = {P_SLOT, 0x01, 0xf1}},
    {"P with home below its code window", JUGROND_ACCEPTED, 0, WITH_HOME, .home = {7, 0x7f, 0xff},
     .slot = {P_SLOT, 0x7f, 0xff}},
    {"P with home past its code window", JUGROND_ACCEPTED, 0, WITH_HOME, .home = {7, 0x80, 0x0b},
     .slot = {P_SLOT, 0x80, 0x0b}},
    {"longer windows, entry $8008 and home $1234", JUGROND_ACCEPTED, 0, WITH_HOME,
     .ticket = {{9, 2}, {13, 0x01}, {14, 0x23}, {17, 0x08}, {19, 0x1d}, {20, 0x4c}}, .home = {7, 0x12, 0x34},
     .slot = {0x80, 0x00, 0, 11, 0x00, 0x40, 0, 2, 0x01, 0xf0, 0x01, 0x23,
              0x80, 0x08, 0, 0x1d, 0x4c, 26, 0, 0, 0, 8, 0, 2, 0x12, 0x34}},
    {"no command $FF", 1, 22, WHOLE, .ticket = {{22, 0xff}}},
    {"no end", 2, 88, .ticket_length = P_TICKET_BYTES - 1, .image_length = P_IMAGE_BYTES},
    {"no ticket", 2, 0, .ticket_length = 0, .image_length = P_IMAGE_BYTES},
    {"two marks at $8000", 3, 33, WHOLE, .ticket = {{35, 0x00}}},
    {"a stack window of 1 byte", 4, 10, WHOLE, .ticket = {{14, 1}}},
    {"a code window that ends at $10009", 5, 0, WHOLE, .ticket = {{1, 0xff}, {2, 0xff}}},
    {"data and stack windows at $01F0", 6, 10, WHOLE, .ticket = {{6, 0x01}, {7, 0xf0}}},
    {"a mark past the code window", 7, 77, WHOLE, .ticket = {{79, 0x0b}}},
    {"a byte past the end", 8, 89, .ticket_length = P_TICKET_BYTES + 1, .image_length = P_IMAGE_BYTES},
    {"an image of 10 bytes", 9, 0, .ticket_length = P_TICKET_BYTES, .image_length = 10},
    {"an image of 12 bytes", 9, 0, .ticket_length = P_TICKET_BYTES, .image_length = 12},
    {"no image", 9, 0, .ticket_length = P_TICKET_BYTES, .image_length = 0},
    {"$41 at $8005", 10, 0x8005, WHOLE, .image = {5, 0x41}},
    {"RTI at $8005", 11, 0x8005, WHOLE, .image = {5, 0x3b}},
    {"a data window of 0 bytes", 12, 0x8008, WHOLE, .ticket = {{9, 0}}},
    {"PULX at depth 1", 13, 0x8004, WHOLE, .image = {4, 0x38}},
    {"$8004 not marked", 14, 0x8001, WHOLE, .ticket = {{46, 0x03}}},
    {"depth 0 at $8001", 15, 0x8000, WHOLE, .ticket = {{41, 0}}},
    {"cost 22 at $8001", 16, 0x8001, WHOLE, .ticket = {{39, 22}}},
    {"need 1 at $8001", 17, 0x8001, WHOLE, .ticket = {{43, 1}}},
    {"entry at $8002", 18, 0x8002, WHOLE, .ticket = {{17, 0x02}}},
    {"limit 25", 19, 0x8000, WHOLE, .ticket = {{21, 25}}},
    {"a stack window of 4 bytes", 20, 0x8000, WHOLE, .ticket = {{14, 4}}},
    {"home $1234, and an image of 10 bytes", 9, 0, .ticket_length = P_TICKET_BYTES + HOME_BYTES, .image_length = 10,
     .home = {7, 0x12, 0x34}},
    {"home $1234 and limit 25", 19, 0x8000, WITH_HOME, .ticket = {{21, 25}}, .home = {7, 0x12, 0x34}},
    {"home $1234 without its last byte", 2, 22, .ticket_length = 24, .image_length = P_IMAGE_BYTES,
     .home = {7, 0x12, 0x34}},
    {"home at the code window's first byte", 29, 22, WITH_HOME, .home = {7, 0x80, 0x00}},
    {"home at the code window's last byte", 29, 22, WITH_HOME, .home = {7, 0x80, 0x0a}},
};
const size_t routine_count = sizeof routines / sizeof routines[0];

#define AFTER_ENTRY 22

static void apply(struct edit e, uint8_t *bytes)
{
    if (e.at != 0)
        bytes[e.at] = e.byte;
}

/* Answers how many bytes, with the one past the end. */
static size_t make_unnamed(const struct routine *r, uint8_t bytes[P_MOST_TICKET_BYTES])
{
    memcpy(bytes, p_ticket, sizeof p_ticket);
    for (size_t i = 0; i < sizeof r->ticket / sizeof r->ticket[0]; i++)
        apply(r->ticket[i], bytes);
    if (r->home[0] == 0)
        return sizeof p_ticket;
    memmove(bytes + AFTER_ENTRY + HOME_BYTES, bytes + AFTER_ENTRY, sizeof p_ticket - AFTER_ENTRY);
    memcpy(bytes + AFTER_ENTRY, r->home, HOME_BYTES);
    return sizeof p_ticket + HOME_BYTES;
}

void make_ticket(const struct routine *r, uint8_t bytes[P_MOST_TICKET_BYTES])
{
    uint8_t unnamed[P_MOST_TICKET_BYTES];
    size_t length = make_unnamed(r, unnamed);

    if (r->named)
        with_names(unnamed, length, bytes);
    else
        memcpy(bytes, unnamed, length);
}

struct routine named(const struct routine *r)
{
    uint8_t unnamed[P_MOST_TICKET_BYTES], bytes[P_MOST_TICKET_BYTES];
    struct routine n = *r;

    make_unnamed(r, unnamed);
    n.named = true;
    n.ticket_length = with_names(unnamed, r->ticket_length, bytes);
    n.place = place_with_names(unnamed, r->ticket_length, r->outcome, r->place);
    return n;
}

void for_each_routine(void (*test)(const struct routine *, size_t), size_t guard)
{
    for (size_t i = 0; i < routine_count; i++) {
        struct routine n = named(&routines[i]);

        test(&routines[i], guard);
        if (n.ticket_length != routines[i].ticket_length)
            test(&n, guard);
    }
}

void make_image(const struct routine *r, uint8_t bytes[P_IMAGE_BYTES + 1])
{
    memcpy(bytes, p_image, sizeof p_image);
    apply(r->image, bytes);
}

uint32_t slot_number(const uint8_t *slot, size_t at, size_t bytes)
{
    uint32_t n = 0;

    for (size_t i = 0; i < bytes; i++)
        n = n << 8 | slot[at + i];
    return n;
}

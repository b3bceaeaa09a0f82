/* Names in a ticket ($06): they are checked and dropped, so that one more at a mark changes no answer but an offset. */
#ifndef NAMES_H
#define NAMES_H

#include <stddef.h>
#include <stdint.h>

#define NAME_BYTES 11

/* Where the marks begin, in a ticket whose header is whole. */
size_t marks_from(const uint8_t *ticket, size_t length);

/* The ticket with a name at once after each mark that has none, up to the first command behind the header that is
   neither a mark nor a name; answers how many bytes. */
size_t with_names(const uint8_t *ticket, size_t length, uint8_t *named);

/* The place of a refusal of the ticket when it has these names: an offset, of causes 1 to 8 and 29, counts those before
   it; every other place stays. */
uint32_t place_with_names(const uint8_t *ticket, size_t length, uint32_t outcome, uint32_t place);

#endif

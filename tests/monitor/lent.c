#include "lent.h"

#include <stdio.h>
#include <stdlib.h>
#include <string.h>

#define GUARD_BYTE 0xa5

const uint8_t fillers[FILLERS] = {0xee, 0x17};
uint8_t filler = 0xee;

struct lent lend(const uint8_t *content, size_t length, size_t guard)
{
    /* Never 0 bytes: with neither content nor guards the lent pointer stands past one byte. */
    size_t before = length + guard == 0 ? 1 : guard;
    struct lent l = {.length = length, .guard = guard};

    l.block = malloc(before + length + guard);
    if (l.block == NULL) {
        perror("malloc");
        exit(2);
    }
    memset(l.block, GUARD_BYTE, before + length + guard);
    l.bytes = l.block + before;
    if (content != NULL)
        memcpy(l.bytes, content, length);
    else
        memset(l.bytes, filler, length);
    return l;
}

bool guards_kept(const struct lent *l)
{
    for (size_t i = 0; i < l->guard; i++)
        if (l->block[i] != GUARD_BYTE || l->bytes[l->length + i] != GUARD_BYTE)
            return false;
    return true;
}

size_t first_difference(const struct lent *l, const uint8_t *wanted)
{
    size_t i = 0;

    if (wanted != NULL && memcmp(l->bytes, wanted, l->length) == 0) /* quick on 65,536 bytes, and under valgrind */
        return l->length;
    while (i < l->length && l->bytes[i] == (wanted == NULL ? filler : wanted[i]))
        i++;
    return i;
}

void take_back(struct lent *l)
{
    free(l->block);
    l->block = NULL;
    l->bytes = NULL;
}

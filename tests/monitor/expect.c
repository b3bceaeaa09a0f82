#include "expect.h"

#include <inttypes.h>
#include <stdio.h>
#include <stdlib.h>

int differences;

void expect_number(const char *name, const char *what, uint32_t got, uint32_t wanted)
{
    if (got != wanted) {
        differences++;
        printf("DIFFERENCE %s: %s %" PRIu32 " instead of %" PRIu32 "\n", name, what, got, wanted);
    }
}

void expect_bytes(const char *name, const char *what, const struct lent *l, const uint8_t *wanted)
{
    size_t at = first_difference(l, wanted);

    if (at < l->length) {
        differences++;
        printf("DIFFERENCE %s: %s: byte %zu is %02x instead of %02x\n", name, what, at, l->bytes[at],
               wanted == NULL ? filler : wanted[at]);
    }
    if (!guards_kept(l)) {
        differences++;
        printf("DIFFERENCE %s: a byte outside the %s was written\n", name, what);
    }
}

void expect_lent(const char *name, const char *what, const struct lent *l, bool written, uint32_t wanted)
{
    uint16_t word = (uint16_t)wanted;

    if (!written)
        expect_bytes(name, what, l, NULL);
    else if (l->length == sizeof word)
        expect_bytes(name, what, l, (const uint8_t *)&word);
    else
        expect_bytes(name, what, l, (const uint8_t *)&wanted);
}

void fill_background(uint8_t *memory, size_t length)
{
    for (size_t i = 0; i < length; i++)
        memory[i] = (uint8_t)(i ^ (i >> 8) ^ 0x5a);
}

void with_each_lending(void (*test)(size_t guard))
{
    for (size_t i = 0; i < FILLERS; i++) {
        filler = fillers[i];
        test(64);
        test(0);
    }
}

int check_groups(const struct group *groups, size_t count)
{
    int passed = 0, failed = 0;

    for (const struct group *g = groups; g < groups + count; g++) {
        differences = 0;
        if (g->lends != NULL)
            with_each_lending(g->lends);
        else
            g->once();
        printf("%s %s\n", differences == 0 ? "ok" : "FAILED", g->name);
        if (differences == 0)
            passed++;
        else
            failed++;
    }
    printf("%d passed, %d failed\n", passed, failed);
    return failed == 0 ? EXIT_SUCCESS : EXIT_FAILURE;
}

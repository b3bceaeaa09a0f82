#include "state.h"
#include <stdio.h>
#include <stdlib.h>
#include <string.h>

enum { CODE = 0x8000 };

static const uint8_t START[13] = {0x12, 0x34,      0x20,        0x00, 0x23, 0x00, 0x01,
                                  0xFF, CODE >> 8, CODE & 0xFF, 0xD0, 0x01, 0xFF};

static FILE *open_or_exit(const char *name, const char *mode)
{
    FILE *f = fopen(name, mode);
    if (f == NULL) {
        perror(name);
        exit(2);
    }
    return f;
}

struct state *state_start(int count, char **words, uint32_t *number)
{
    static struct state s;
    if (count != 4) {
        fprintf(stderr, "usage: %s MIX NUMBER OUT\n", words[0]);
        exit(2);
    }
    memcpy(s.registers, START, sizeof START);
    FILE *f = open_or_exit(words[1], "rb");
    if (fread(s.memory + CODE, 1, sizeof s.memory - CODE, f) == 0) {
        fprintf(stderr, "%s: empty\n", words[1]);
        exit(2);
    }
    fclose(f);
    *number = (uint32_t)strtoul(words[2], NULL, 10);
    return &s;
}

void state_save(const struct state *s, char **words)
{
    const uint8_t cycles[4] = {(uint8_t)(s->cycles >> 24), (uint8_t)(s->cycles >> 16), (uint8_t)(s->cycles >> 8),
                               (uint8_t)s->cycles};
    FILE *f = open_or_exit(words[3], "wb");
    if (fwrite(s->registers, 1, 13, f) != 13 || fwrite(cycles, 1, 4, f) != 4 ||
        fwrite(s->memory, 1, 65536, f) != 65536 || fclose(f) != 0) {
        perror(words[3]);
        exit(2);
    }
}

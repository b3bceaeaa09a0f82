#include "load.h"

#include <stdio.h>

size_t load(const char *name, uint8_t *to)
{
    FILE *f = fopen(name, "rb");
    size_t n;

    if (f == NULL)
        return 0;
    n = fread(to, 1, 65536, f);
    fclose(f);
    return n;
}

/* A whole file in a buffer of 65,536 bytes. */
#ifndef LOAD_H
#define LOAD_H

#include <stddef.h>
#include <stdint.h>

/* How many bytes were read: none where there is no such file. */
size_t load(const char *name, uint8_t *to);

#endif

/* What a call could write is filled before it with a byte, by which is seen what was written. */
#ifndef FILLED_H
#define FILLED_H
#include <stddef.h>
#include <stdint.h>

enum { FILLING = 0xA5 };

static inline int is_filled(const void *what, size_t n)
{
    for (size_t i = 0; i < n; i++)
        if (((const uint8_t *)what)[i] != FILLING)
            return 0;
    return 1;
}

#endif

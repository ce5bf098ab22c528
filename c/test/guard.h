/* Slices that end where a page begins that can't be touched: a call that goes behind one ends the program. */
#ifndef GUARD_H
#define GUARD_H
#include "filled.h"
#include <string.h>
#include <sys/mman.h>
#include <unistd.h>

/* The end of so much room, where such a page begins; null where there is none. */
static inline uint8_t *guarded(size_t room)
{
    size_t page = (size_t)sysconf(_SC_PAGESIZE), whole = (room + page - 1) / page * page;
    uint8_t *at = mmap(NULL, whole + page, PROT_READ | PROT_WRITE, MAP_PRIVATE | MAP_ANONYMOUS, -1, 0);
    return at == MAP_FAILED || mprotect(at + whole, page, PROT_NONE) ? NULL : at + whole;
}

/* So many bytes right before it, filled. */
static inline void *filled_before(void *guard, size_t n) { return memset((uint8_t *)guard - n, FILLING, n); }

#endif

/* Three functions of a program's own in the place of those of heap.c, which count, and refuse memory once. */
#ifndef OWN_HEAP_H
#define OWN_HEAP_H
#include <stddef.h>
#include <stdlib.h>

typedef struct {
    size_t is_some;
    void *at;
} rattle_block;

rattle_block rattle_alloc(size_t size, size_t align);
rattle_block rattle_realloc(void *old, size_t old_size, size_t size, size_t align);
void rattle_dealloc(void *at);

static size_t asked, refused_at, held; /* how often memory was asked for, which of these is refused, how many blocks there are */
static char nothing;

static rattle_block block_of(void *at)
{
    rattle_block block = {at != NULL, at ? at : &nothing};
    return block;
}

rattle_block rattle_alloc(size_t size, size_t align)
{
    if (++asked == refused_at)
        return block_of(NULL);
    held++;
    return block_of(malloc(size ? size : align));
}

rattle_block rattle_realloc(void *old, size_t old_size, size_t size, size_t align)
{
    (void)old_size;
    if (++asked == refused_at)
        return block_of(NULL);
    return block_of(realloc(old, size ? size : align));
}

void rattle_dealloc(void *at)
{
    held--;
    free(at);
}

#endif

/* The heap of the calls that ask for memory: what they call, over malloc, realloc and free. A program that has three functions of
 * these names of its own is linked with those. A block is answered with whether there is one. */
#include <stddef.h>
#include <stdlib.h>

typedef struct {
    size_t is_some;
    void *at;
} rattle_block;

rattle_block rattle_alloc(size_t size, size_t align);
rattle_block rattle_realloc(void *old, size_t old_size, size_t size, size_t align);
void rattle_dealloc(void *at);

static char nothing;

static rattle_block block_of(void *at)
{
    rattle_block block;
    block.is_some = at != NULL;
    block.at = at ? at : &nothing;
    return block;
}

rattle_block rattle_alloc(size_t size, size_t align) { return block_of(malloc(size ? size : align)); }

rattle_block rattle_realloc(void *old, size_t old_size, size_t size, size_t align)
{
    (void)old_size;
    return block_of(realloc(old, size ? size : align));
}

void rattle_dealloc(void *at) { free(at); }

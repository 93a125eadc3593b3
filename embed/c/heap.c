/*
 * heap.c: the heap of the proved code, which is the process's malloc, realloc and free.
 *
 * `size` may be 0; a block of `align` bytes is given then, so that each block has an address of its own. `align` is 16
 * at most, which malloc gives. Trusted, not proved.
 */
#include <stdbool.h>
#include <stddef.h>
#include <stdlib.h>

struct block {
    bool ok;
    void *at;
};

/* A pointer that is not null, which the caller of a failed call does not read. */
static char none;

static struct block block_at(void *at) { return (struct block){.ok = at != NULL, .at = at ? at : &none}; }

struct block rattle_alloc(size_t size, size_t align);
struct block rattle_realloc(void *at, size_t kept, size_t size, size_t align);
void rattle_dealloc(void *at);

struct block rattle_alloc(size_t size, size_t align) { return block_at(malloc(size ? size : align)); }

struct block rattle_realloc(void *at, size_t kept, size_t size, size_t align) {
    (void)kept;
    return block_at(realloc(at, size ? size : align));
}

void rattle_dealloc(void *at) { free(at); }

/* An allocator for the library, over malloc, realloc and free. A program may have any other. */
#include "matchcheck.h"

#include <stdlib.h>

/* What malloc and realloc give, which is an address also where they refuse. */
static struct matchcheck_block block_of(void *at) {
    static char nowhere;
    struct matchcheck_block block = {at != NULL, at != NULL ? at : &nowhere};
    return block;
}

struct matchcheck_block rattle_alloc(size_t size, size_t align) {
    return block_of(malloc(size != 0 ? size : align));
}

struct matchcheck_block rattle_realloc(void *at, size_t old, size_t size, size_t align) {
    (void)old;
    return block_of(realloc(at, size != 0 ? size : align));
}

void rattle_dealloc(void *at) { free(at); }

/* The three functions by which the library takes memory of its host, here over malloc. An emulator may bring its own allocator in their place. */
#include <stdlib.h>

#include "w16.h"

static char nothing[16] __attribute__((aligned(16)));

/* So many bytes; align is at most 16, as malloc has it. */
struct rattle_tried rattle_alloc(size_t size, size_t align) {
    void *at = malloc(size ? size : 1);
    (void)align;
    return (struct rattle_tried){ at != NULL, at ? at : nothing };
}

/* Another size for the same bytes. Where there is no memory, they stay where they are. */
struct rattle_tried rattle_realloc(void *at, size_t kept, size_t size, size_t align) {
    void *now = realloc(at, size ? size : 1);
    (void)kept;
    (void)align;
    return (struct rattle_tried){ now != NULL, now ? now : at };
}

void rattle_dealloc(void *at) {
    free(at);
}

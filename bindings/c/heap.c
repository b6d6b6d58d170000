/* SPDX-License-Identifier: MIT OR Apache-2.0 */
/* What the proved calls ask of a heap, over the C library's: for a processor for which the kit has no such library. */
#include <stdint.h>
#include <stdlib.h>

/* A place for some bytes: `made` is 1, or 0 where there was no room, and then `place` points to nothing of use. */
typedef struct {
    uint64_t made;
    void *place;
} rattle_growth;

rattle_growth rattle_alloc(size_t size, size_t alignment);
rattle_growth rattle_realloc(void *place, size_t old_size, size_t size, size_t alignment);
void rattle_dealloc(void *place);

static char nothing[1];

static rattle_growth growth(void *place) {
    return (rattle_growth){place != NULL, place ? place : nothing};
}

/* No bytes at all have a place of their own too, which is freed as any other. */
rattle_growth rattle_alloc(size_t size, size_t alignment) {
    return growth(malloc(size ? size : alignment));
}

rattle_growth rattle_realloc(void *place, size_t old_size, size_t size, size_t alignment) {
    (void)old_size;
    return growth(realloc(place, size ? size : alignment));
}

void rattle_dealloc(void *place) {
    free(place);
}

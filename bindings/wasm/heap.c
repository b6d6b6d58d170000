/* SPDX-License-Identifier: MIT OR Apache-2.0 */
/* A heap over the memory of WebAssembly, which grows and never shrinks. Blocks have sizes with four steps to a doubling: 16, 32, 48,
   64, 80, 96, 112, 128, 160 .. Before each are 16 bytes with its class; a block that is free stands on the list of its class. */
#include "libc.h"

enum { HEAD = 16, PAGE = 65536, CLASSES = 100 };

/* The size of the last class. */
#define MOST ((size_t)1 << 30)

/* tests/bindings/wasm.c has a memory of its own. */
#ifndef MEMORY
extern char __heap_base;
#define MEMORY
#define memory_end() (__builtin_wasm_memory_size(0) * (uintptr_t)PAGE)
#define memory_grow(pages) __builtin_wasm_memory_grow(0, pages)
#define memory_begin ((uintptr_t)&__heap_base)
#endif

typedef struct block {
    struct block *next;
} block;

static block *lists[CLASSES];
static uintptr_t top; /* what lies from here on was never given away */

static unsigned class_of(size_t size) {
    if (size <= 64) return size ? (unsigned)(size - 1) / 16 : 0;
    unsigned bits = 64 - (unsigned)__builtin_clzll(size - 1);
    return 4 * (bits - 6) + ((unsigned)((size - 1) >> (bits - 3)) & 3);
}

static size_t size_of(unsigned class) {
    return class < 4 ? 16 * ((size_t)class + 1) : ((size_t)5 + class % 4) << (class / 4 + 3);
}

static size_t *class_at(void *place) {
    return (size_t *)((char *)place - HEAD);
}

/* Whether so many bytes lie from the top on, where memory grows if they don't: by a sixteenth more, so that it grows seldom, or else
   by what is wanted. What a growth answers is not read: where it is refused that is 2^32 - 1 for a memory of 32 bits, which
   is no -1 in the 64 bits for which this was compiled. Only the size tells. */
static int has_room(size_t whole) {
    if (!top) top = (memory_begin + HEAD - 1) / HEAD * HEAD;
    uintptr_t end = memory_end();
    if (end - top >= whole) return 1;
    size_t pages = (whole - (end - top) + PAGE - 1) / PAGE;
    memory_grow(pages + end / PAGE / 16);
    if (memory_end() == end) memory_grow(pages);
    return memory_end() - top >= whole;
}

void *malloc(size_t size) {
    if (size > MOST) return NULL;
    unsigned class = class_of(size);
    block *found = lists[class];
    if (found) {
        lists[class] = found->next;
        return found;
    }
    size_t whole = HEAD + size_of(class);
    if (!has_room(whole)) return NULL;
    void *made = (void *)(top + HEAD);
    top += whole;
    *class_at(made) = class;
    return made;
}

void free(void *place) {
    if (!place) return;
    block *freed = place, **list = &lists[*class_at(place)];
    freed->next = *list;
    *list = freed;
}

void *calloc(size_t count, size_t size) {
    if (size && count > MOST / size) return NULL;
    void *made = malloc(count * size);
    return made ? memset(made, 0, count * size) : NULL;
}

void *realloc(void *place, size_t size) {
    if (!place) return malloc(size);
    size_t had = size_of((unsigned)*class_at(place));
    if (size <= MOST && class_of(size) == *class_at(place)) return place;
    void *made = malloc(size);
    if (!made) return NULL;
    memcpy(made, place, had < size ? had : size);
    free(place);
    return made;
}

/* Instructions of WebAssembly: memory.copy and memory.fill. */
#ifdef __wasm__
void *memcpy(void *restrict to, const void *restrict from, size_t count) {
    return __builtin_memcpy(to, from, count);
}

void *memmove(void *to, const void *from, size_t count) {
    return __builtin_memmove(to, from, count);
}

void *memset(void *to, int byte, size_t count) {
    return __builtin_memset(to, byte, count);
}
#endif

int memcmp(const void *one, const void *other, size_t count) {
    const unsigned char *a = one, *b = other;
    while (count && *a == *b) a++, b++, count--;
    return count ? *a - *b : 0;
}

/* What a compiler makes of a comparison with 0. */
int bcmp(const void *one, const void *other, size_t count) {
    return memcmp(one, other, count);
}

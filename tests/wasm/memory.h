/* SPDX-License-Identifier: MIT OR Apache-2.0 */
/* A memory for bindings/wasm/heap.c on this machine, below 4 GiB, and names of its own for what the C library has too. */
#include <stddef.h>
#include <stdint.h>

#define MEMORY
extern unsigned char memory[];
extern size_t memory_pages, memory_most, memory_asked;
void memory_grow(size_t pages);
#define memory_begin ((uintptr_t)memory + 8)
#define memory_end() ((uintptr_t)memory + memory_pages * 65536)

#define malloc heap_malloc
#define calloc heap_calloc
#define realloc heap_realloc
#define free heap_free
#define memcmp heap_memcmp
#define bcmp heap_bcmp

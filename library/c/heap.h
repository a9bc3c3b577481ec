/* heap.h: the three functions by which the library takes memory. A program links one file that defines them: heap.c,
 * over malloc, or arena.c, over a block of fixed size. The contracts that the proofs take for granted stand in
 * rattle/libc/src/heap.rt of the kit. */
#ifndef RVCFI_HEAP_H
#define RVCFI_HEAP_H

#include <stdbool.h>
#include <stddef.h>

struct rattle_tried {
    bool ok; /* whether there was memory */
    void *p; /* the block; never NULL, also where there was none */
};

/* A new block of `size` bytes, aligned to `align`, a power of two up to 16. */
struct rattle_tried rattle_alloc(size_t size, size_t align);

/* Makes the block at `block` one of `size` bytes, whose first `kept` are as they were. It may move. Where there is no
 * memory, the block is as it was. */
struct rattle_tried rattle_realloc(void *block, size_t kept, size_t size, size_t align);

/* Gives a block back. */
void rattle_dealloc(void *block);

#endif

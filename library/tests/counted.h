/* counted.h: c/heap.c over a malloc whose requests are counted, and of which some fail; those of 0 bytes always do. For one thread. */
#ifndef RVCFI_TEST_COUNTED_H
#define RVCFI_TEST_COUNTED_H

#include <stdbool.h>
#include <stdlib.h>

static unsigned long requests; /* how many there were */
static unsigned long refused;  /* the number of the first that fails, from 1; 0 where none does */
static bool all_after;         /* whether all behind it fail too */
static long blocks;            /* how many are out */

static bool fails(void)
{
    requests += 1;
    return refused != 0 && (all_after ? requests >= refused : requests == refused);
}

static void *counted_malloc(size_t size)
{
    void *block = fails() || size == 0 ? NULL : malloc(size);

    blocks += block != NULL;
    return block;
}

static void *counted_realloc(void *block, size_t size)
{
    return fails() || size == 0 ? NULL : realloc(block, size);
}

static void counted_free(void *block)
{
    blocks -= block != NULL;
    free(block);
}

#define malloc counted_malloc
#define realloc counted_realloc
#define free counted_free
#include "../c/heap.c"
#undef malloc
#undef realloc
#undef free

static void begin(unsigned long first, bool others)
{
    requests = 0;
    refused = first;
    all_after = others;
}

#endif

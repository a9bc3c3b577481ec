/* heap.c: the library's memory from malloc. The kit has the same compiled, in c/liblibc_c.a. */
#include "heap.h"

#include <stdlib.h>

static char nothing[16];

static struct rattle_tried tried(void *block)
{
    struct rattle_tried answer;

    answer.ok = block != NULL;
    answer.p = answer.ok ? block : nothing;
    return answer;
}

/* Of 0 bytes malloc may answer NULL, so a block has at least one. */
static size_t at_least_one(size_t size)
{
    return size != 0 ? size : 1;
}

struct rattle_tried rattle_alloc(size_t size, size_t align)
{
    (void)align;
    return tried(malloc(at_least_one(size)));
}

struct rattle_tried rattle_realloc(void *block, size_t kept, size_t size, size_t align)
{
    (void)kept;
    (void)align;
    return tried(realloc(block, at_least_one(size)));
}

void rattle_dealloc(void *block)
{
    free(block);
}

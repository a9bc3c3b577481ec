/* Refuses one allocation of a program, that with the number REFUSED, counted from 1. Where that is 0, none is
   refused, and the program ends with a line on standard error: how many there were. */
#include <errno.h>
#include <stddef.h>
#include <stdio.h>
#include <stdlib.h>

extern void *__libc_malloc(size_t size);
extern void *__libc_calloc(size_t count, size_t size);
extern void *__libc_realloc(void *old, size_t size);
extern void *__libc_memalign(size_t align, size_t size);

static long refuse = -1, taken;

static int refused(void)
{
    if (refuse < 0)
        refuse = atol(getenv("REFUSED"));
    taken += 1;
    return taken == refuse;
}

void *malloc(size_t size)
{
    return refused() ? NULL : __libc_malloc(size);
}

void *calloc(size_t count, size_t size)
{
    return refused() ? NULL : __libc_calloc(count, size);
}

void *realloc(void *old, size_t size)
{
    return refused() ? NULL : __libc_realloc(old, size);
}

void *aligned_alloc(size_t align, size_t size)
{
    return refused() ? NULL : __libc_memalign(align, size);
}

int posix_memalign(void **out, size_t align, size_t size)
{
    if (refused())
        return ENOMEM;
    *out = __libc_memalign(align, size);
    return *out ? 0 : ENOMEM;
}

__attribute__((destructor)) static void tell(void)
{
    if (refuse == 0)
        dprintf(2, "%ld\n", taken);
}

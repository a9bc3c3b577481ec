/* bare.c: a program without any C library that verifies the pair within it: with status 0 where it is accepted.
 *
 * IMAGE and GRAPH are the names of the two files, as strings. x86-64 and aarch64 Linux. */
#include "rvcfi.h"

extern const uint8_t image[], image_end[], graph[], graph_end[];

__asm__(".section .rodata\n"
        ".global image, image_end, graph, graph_end\n"
        "image: .incbin \"" IMAGE "\"\nimage_end:\n"
        "graph: .incbin \"" GRAPH "\"\ngraph_end: .byte 0\n"
        ".text\n.global _start\n_start:\n"
#if defined(__x86_64__)
        "call bare_main\nmov %eax, %edi\nmov $60, %eax\nsyscall\n"
#elif defined(__aarch64__)
        "bl bare_main\nmov x8, #93\nsvc #0\n"
#endif
);

void *memset(void *to, int byte, size_t length);
void *memcpy(void *restrict to, const void *restrict from, size_t length);
int bare_main(void);

void *memset(void *to, int byte, size_t length)
{
    volatile unsigned char *at = to;

    while (length-- != 0)
        *at++ = (unsigned char)byte;
    return to;
}

void *memcpy(void *restrict to, const void *restrict from, size_t length)
{
    volatile unsigned char *at = to;
    const unsigned char *source = from;

    while (length-- != 0)
        *at++ = *source++;
    return to;
}

int bare_main(void)
{
    struct rvcfi_verdict verdict;
    uint16_t calls[RVCFI_CALLS_MOST] = {0};
    uint32_t count = 0;

    if (rvcfi_verify(image, (size_t)(image_end - image), graph, (size_t)(graph_end - graph), &verdict) != RVCFI_ACCEPTED)
        return (int)verdict.outcome;
    if (rvcfi_calls(graph, (size_t)(graph_end - graph), calls, RVCFI_CALLS_MOST, &count) != RVCFI_CALLS_LISTED)
        return 10;
    return count == 3 && calls[0] == 63 && calls[1] == 64 && calls[2] == 93 ? 0 : 11;
}

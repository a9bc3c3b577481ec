/* cost.c: what rvcfi_verify takes of a pair: cost TURNS IMAGE GRAPH
 *
 * Prints the outcome, the time of a call (the best of TURNS), how often it asks for memory and how many bytes it has at most. */
#define _POSIX_C_SOURCE 199309L
#include "file.h"
#include "heap.h"
#include "rvcfi.h"

#include <stdlib.h>
#include <time.h>

/* Before each block stands its size. */
#define BEFORE 16

static unsigned long requests, held, most;

static struct rattle_tried told(uint8_t *start, size_t was, size_t size)
{
    struct rattle_tried tried;

    if (start == NULL)
        abort();
    requests += 1;
    held += size - was;
    most = held > most ? held : most;
    *(size_t *)(void *)start = size;
    tried.ok = true;
    tried.p = start + BEFORE;
    return tried;
}

static size_t size_of(void *block)
{
    return *(size_t *)(void *)((uint8_t *)block - BEFORE);
}

struct rattle_tried rattle_alloc(size_t size, size_t align)
{
    (void)align;
    return told(malloc(BEFORE + size), 0, size);
}

struct rattle_tried rattle_realloc(void *block, size_t kept, size_t size, size_t align)
{
    size_t was = size_of(block);

    (void)kept;
    (void)align;
    return told(realloc((uint8_t *)block - BEFORE, BEFORE + size), was, size);
}

void rattle_dealloc(void *block)
{
    held -= size_of(block);
    free((uint8_t *)block - BEFORE);
}

static double microseconds(const struct file files[2], struct rvcfi_verdict *verdict)
{
    struct timespec before, behind;

    clock_gettime(CLOCK_MONOTONIC, &before);
    rvcfi_verify(files[0].bytes, files[0].length, files[1].bytes, files[1].length, verdict);
    clock_gettime(CLOCK_MONOTONIC, &behind);
    return (double)(behind.tv_sec - before.tv_sec) * 1e6 + (double)(behind.tv_nsec - before.tv_nsec) / 1e3;
}

int main(int argc, char **argv)
{
    struct file files[2];
    struct rvcfi_verdict verdict;
    double best = 1e30, time;
    int k, turns;

    if (argc != 4 || files_read(stderr, (const char *const *)(argv + 2), files) != STATUS_OK)
        return STATUS_USAGE;
    turns = atoi(argv[1]);
    for (k = 0; k < turns; k++) {
        requests = most = 0;
        time = microseconds(files, &verdict);
        best = time < best ? time : best;
    }
    printf("outcome %u, %.1f microseconds, %lu requests, at most %lu bytes\n", (unsigned)verdict.outcome, best, requests, most);
    free(files[0].bytes);
    free(files[1].bytes);
    return held != 0;
}

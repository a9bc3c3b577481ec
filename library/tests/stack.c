/* stack.c: how many bytes of stack a call writes below its caller: stack FUNCTION IMAGE GRAPH
 *
 * The call is made on a painted stack, once as the first of the program, where malloc begins and its symbols are looked up, and
 * once more. More than rvcfi.h asks for fails. */
#define _DEFAULT_SOURCE
#include "check.h"
#include "file.h"
#include "rvcfi.h"

#include <pthread.h>
#include <stdlib.h>
#include <string.h>
#include <sys/mman.h>

#define BOUND 8192
#define STACK ((size_t)1 << 18)
#define PAINT 0xa5

enum export { VERIFY, PLAN, CALLS };

static const char *const names[] = {"rvcfi_verify", "rvcfi_plan", "rvcfi_calls"};

struct call {
    enum export which;
    const struct file *files;
    const uint8_t *caller; /* an address of the caller's own frame */
};

static void *make(void *given)
{
    struct call *call = given;
    const struct file *image = &call->files[0], *graph = &call->files[1];
    struct rvcfi_verdict verdict;
    struct rvcfi_image_plan plan;
    uint16_t calls[RVCFI_CALLS_MOST] = {0};
    uint32_t count;
    volatile uint8_t here = 0;

    call->caller = (const uint8_t *)&here;
    switch (call->which) {
    case VERIFY:
        rvcfi_verify(image->bytes, image->length, graph->bytes, graph->length, &verdict);
        break;
    case PLAN:
        rvcfi_plan(image->bytes, image->length, &plan);
        break;
    default:
        rvcfi_calls(graph->bytes, graph->length, calls, RVCFI_CALLS_MOST, &count);
        break;
    }
    return NULL;
}

/* How far below its caller a call has written: 0 where it could not be made. */
static size_t depth(struct call *call)
{
    uint8_t *stack = mmap(NULL, STACK, PROT_READ | PROT_WRITE, MAP_PRIVATE | MAP_ANONYMOUS, -1, 0);
    size_t below = 0, lowest = 0;
    pthread_attr_t attributes;
    pthread_t thread;

    if (stack == MAP_FAILED)
        return 0;
    memset(stack, PAINT, STACK);
    pthread_attr_init(&attributes);
    if (pthread_attr_setstack(&attributes, stack, STACK) == 0 && pthread_create(&thread, &attributes, make, call) == 0) {
        pthread_join(thread, NULL);
        while (lowest < STACK && stack[lowest] == PAINT)
            lowest++;
        below = (size_t)(call->caller - stack) - lowest;
    }
    pthread_attr_destroy(&attributes);
    munmap(stack, STACK);
    return below;
}

int main(int argc, char **argv)
{
    struct file files[2];
    struct call call;
    size_t first, again;
    int k;

    if (argc != 4 || files_read(stderr, (const char *const *)(argv + 2), files) != STATUS_OK)
        return STATUS_USAGE;
    call.files = files;
    for (k = CALLS; k > VERIFY && strcmp(argv[1], names[k]) != 0; k--)
        ;
    call.which = (enum export)k;
    first = depth(&call);
    again = depth(&call);
    printf("%s %lu bytes, at first %lu\n", names[k], (unsigned long)again, (unsigned long)first);
    CHECK(again > 0 && again <= BOUND && first > 0 && first <= BOUND);
    free(files[0].bytes);
    free(files[1].bytes);
    return checks_failed != 0;
}

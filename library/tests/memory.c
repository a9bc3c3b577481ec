/* memory.c: each request of memory fails in turn: memory OUTCOME IMAGE GRAPH
 *
 * OUTCOME is what rvcfi_verify answers where none fails. Each time the answer is RVCFI_NO_MEMORY, and no block is left. The archive
 * is compiled without sanitizers: of it AddressSanitizer sees what it asks of the heap; bounds.c looks at what it reads. */
#include "check.h"
#include "counted.h"
#include "file.h"
#include "rvcfi.h"

#include <stdlib.h>
#include <string.h>

static uint32_t verified(const struct file files[2], struct rvcfi_verdict *verdict)
{
    memset(verdict, 0xa5, sizeof *verdict);
    return rvcfi_verify(files[0].bytes, files[0].length, files[1].bytes, files[1].length, verdict);
}

/* The verdict where the request with this number fails, and all behind it or none. */
static void refuse(const struct file files[2], unsigned long first, bool others)
{
    struct rvcfi_verdict verdict;

    begin(first, others);
    CHECK(verified(files, &verdict) == RVCFI_NO_MEMORY);
    CHECK(verdict.outcome == RVCFI_NO_MEMORY && verdict.reason == 0 && verdict.first == 0 && verdict.second == 0);
    CHECK(blocks == 0);
}

static unsigned long verdicts(const struct file files[2], uint32_t outcome)
{
    struct rvcfi_verdict verdict;
    unsigned long all, k;

    begin(0, false);
    CHECK(verified(files, &verdict) == outcome && verdict.outcome == outcome);
    CHECK(blocks == 0);
    all = requests;
    for (k = 1; k <= all; k++) {
        refuse(files, k, false);
        refuse(files, k, true);
    }
    begin(0, false);
    CHECK(verified(files, &verdict) == outcome && requests == all);
    return all;
}

static unsigned long lists(const struct file *graph)
{
    uint16_t calls[2] = {7, 8};
    uint32_t count = 9;
    unsigned long all, k;

    begin(0, false);
    CHECK(rvcfi_calls(graph->bytes, graph->length, calls, 0, &count) != RVCFI_CALLS_NO_MEMORY);
    all = requests;
    count = 9;
    for (k = 1; k <= all; k++) {
        begin(k, false);
        CHECK(rvcfi_calls(graph->bytes, graph->length, calls, 2, &count) == RVCFI_CALLS_NO_MEMORY);
        CHECK(calls[0] == 7 && calls[1] == 8 && count == 9 && blocks == 0);
    }
    return all;
}

/* What heap.h says of blocks: one of no bytes is a block too, no answer is NULL, and what cannot grow is as it was. */
static void heap(void)
{
    struct rattle_tried first, second, failed;

    begin(0, false);
    first = rattle_alloc(0, 1);
    second = rattle_alloc(3, 1);
    CHECK(first.ok && first.p != NULL && second.ok && second.p != NULL && first.p != second.p);
    memcpy(second.p, "abc", 3);
    first = rattle_realloc(first.p, 0, 0, 1);
    second = rattle_realloc(second.p, 3, 4096, 1);
    CHECK(first.ok && second.ok && memcmp(second.p, "abc", 3) == 0);
    begin(1, true);
    failed = rattle_alloc(8, 1);
    CHECK(!failed.ok && failed.p != NULL);
    failed = rattle_realloc(second.p, 3, 8192, 1);
    CHECK(!failed.ok && failed.p != NULL && memcmp(second.p, "abc", 3) == 0);
    rattle_dealloc(second.p);
    rattle_dealloc(first.p);
    CHECK(blocks == 0);
}

int main(int argc, char **argv)
{
    struct file files[2];
    unsigned long of_verdict, of_list;

    if (argc != 4 || files_read(stderr, (const char *const *)(argv + 2), files) != STATUS_OK)
        return STATUS_USAGE;
    heap();
    of_verdict = verdicts(files, (uint32_t)atoi(argv[1]));
    of_list = lists(&files[1]);
    CHECK(of_verdict > 0 && of_list > 0 && blocks == 0);
    printf("rvcfi_verify %lu requests, rvcfi_calls %lu\n", of_verdict, of_list);
    free(files[0].bytes);
    free(files[1].bytes);
    return checks_failed != 0;
}

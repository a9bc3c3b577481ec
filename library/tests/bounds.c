/* bounds.c: that no byte is read but those that are given: bounds IMAGE GRAPH
 *
 * Each part of the two files from their beginning stands right before a page that nobody may read, and each right behind one;
 * a read of one byte more ends the test by a signal. What is said of a part is known from its length and its lines. */
#define _DEFAULT_SOURCE
#include "check.h"
#include "file.h"
#include "rvcfi.h"

#include <stdlib.h>
#include <string.h>
#include <sys/mman.h>

#define PAGE ((size_t)4096)

/* Room between two pages that nobody may read. */
struct fenced {
    uint8_t *start;
    size_t size;
};

static void fence(struct fenced *room, size_t length)
{
    uint8_t *all;

    room->size = (length / PAGE + 1) * PAGE;
    all = mmap(NULL, room->size + 2 * PAGE, PROT_NONE, MAP_PRIVATE | MAP_ANONYMOUS, -1, 0);
    if (all == MAP_FAILED || mprotect(all + PAGE, room->size, PROT_READ | PROT_WRITE) != 0)
        abort();
    room->start = all + PAGE;
}

/* The first bytes of a file, at one end of a room. */
static uint8_t *put(const struct fenced *room, const struct file *file, size_t length, int is_last)
{
    uint8_t *at = is_last ? room->start + room->size - length : room->start;

    if (length != 0)
        memcpy(at, file->bytes, length);
    return at;
}

static void images(const struct fenced *room, const struct file *image, const struct file *graph, int is_last)
{
    struct rvcfi_verdict verdict;
    struct rvcfi_image_plan plan;
    size_t length;
    uint8_t *at;

    for (length = 0; length < image->length; length++) {
        at = put(room, image, length, is_last);
        CHECK(rvcfi_verify(at, length, graph->bytes, graph->length, &verdict) == RVCFI_BAD_IMAGE);
        CHECK(verdict.reason == RVCFI_SHORT && verdict.first == length);
        CHECK(rvcfi_plan(at, length, &plan) == RVCFI_PLAN_NO_IMAGE);
    }
    at = put(room, image, image->length, is_last);
    CHECK(rvcfi_verify(at, image->length, graph->bytes, graph->length, &verdict) == RVCFI_ACCEPTED);
    CHECK(rvcfi_plan(at, image->length, &plan) == RVCFI_PLANNED);
}

/* The line that lacks its newline, or its end, in a part of a graph: lines before it are right. */
static uint64_t broken_line(const struct file *graph, size_t length)
{
    uint64_t line = 1;
    size_t k;

    for (k = 0; k < length; k++)
        line += graph->bytes[k] == '\n';
    return line;
}

static void graphs(const struct fenced *room, const struct file *image, const struct file *graph, int is_last)
{
    struct rvcfi_verdict verdict;
    uint16_t calls[1] = {0};
    uint32_t count = 0;
    size_t length;
    uint8_t *at;

    for (length = 0; length < graph->length; length++) {
        at = put(room, graph, length, is_last);
        CHECK(rvcfi_verify(image->bytes, image->length, at, length, &verdict) == RVCFI_BAD_GRAPH);
        CHECK(verdict.reason == RVCFI_FORM && verdict.first == broken_line(graph, length));
        CHECK(rvcfi_calls(at, length, calls, 1, &count) == RVCFI_CALLS_BAD_GRAPH);
    }
    at = put(room, graph, graph->length, is_last);
    CHECK(rvcfi_verify(image->bytes, image->length, at, graph->length, &verdict) == RVCFI_ACCEPTED);
    CHECK(rvcfi_calls(at, graph->length, calls, 1, &count) != RVCFI_CALLS_BAD_GRAPH);
}

int main(int argc, char **argv)
{
    struct file files[2];
    struct fenced rooms[2];
    int is_last;

    if (argc != 3 || files_read(stderr, (const char *const *)(argv + 1), files) != STATUS_OK)
        return STATUS_USAGE;
    fence(&rooms[0], files[0].length);
    fence(&rooms[1], files[1].length);
    for (is_last = 0; is_last < 2; is_last++) {
        images(&rooms[0], &files[0], &files[1], is_last);
        graphs(&rooms[1], &files[0], &files[1], is_last);
    }
    free(files[0].bytes);
    free(files[1].bytes);
    return checks_failed != 0;
}

/* layout.c: that the structs of rvcfi.h are those that the library fills: layout ACCEPTED.img ACCEPTED.graph OTHER.img OTHER.graph
 *
 * The first pair is the tutorial's visitors (2,420 bytes of code, 151 of data, no list), the second its plugin (2,532 bytes of
 * code, the list 63 64 93). The numbers are those of docs/TUTORIAL.md and docs/FORMATS.md. C11. */
#include "check.h"
#include "file.h"
#include "rvcfi.h"

#include <stdlib.h>
#include <string.h>

#define IS_AT(type, field, offset, size) \
    _Static_assert(offsetof(struct type, field) == (offset) && sizeof(((struct type *)0)->field) == (size), #field)

_Static_assert(sizeof(struct rvcfi_verdict) == 24, "rvcfi_verdict");
_Static_assert(sizeof(struct rvcfi_image_plan) == 96, "rvcfi_image_plan");
_Static_assert(RVCFI_CALLS_MOST == 8 && RVCFI_CALLS_GREATEST == 2047, "a list");
IS_AT(rvcfi_verdict, outcome, 0, 4);
IS_AT(rvcfi_verdict, reason, 4, 4);
IS_AT(rvcfi_verdict, first, 8, 8);
IS_AT(rvcfi_verdict, second, 16, 8);
IS_AT(rvcfi_image_plan, version, 0, 4);
IS_AT(rvcfi_image_plan, harts, 4, 4);
IS_AT(rvcfi_image_plan, entry, 8, 8);
IS_AT(rvcfi_image_plan, code_offset, 16, 8);
IS_AT(rvcfi_image_plan, code_length, 24, 8);
IS_AT(rvcfi_image_plan, code_address, 32, 8);
IS_AT(rvcfi_image_plan, code_size, 40, 8);
IS_AT(rvcfi_image_plan, data_offset, 48, 8);
IS_AT(rvcfi_image_plan, data_length, 56, 8);
IS_AT(rvcfi_image_plan, data_address, 64, 8);
IS_AT(rvcfi_image_plan, data_end, 72, 8);
IS_AT(rvcfi_image_plan, shadow_address, 80, 8);
IS_AT(rvcfi_image_plan, shadow_size, 88, 8);

#define DATA_LENGTH_AT 96  /* the field of an image that says how long its data are */
#define SHADOW_SIZE_AT 216 /* the field of an image by which its versions differ */

static uint32_t verify(const struct file *image, const struct file *graph, struct rvcfi_verdict *verdict)
{
    memset(verdict, 0xa5, sizeof *verdict);
    return rvcfi_verify(image->bytes, image->length, graph->bytes, graph->length, verdict);
}

static void verdicts(struct file *image, struct file *graph, const struct file *other)
{
    struct rvcfi_verdict it;

    CHECK(verify(image, graph, &it) == 0 && it.outcome == 0 && it.reason == 0 && it.first == 0 && it.second == 0);
    CHECK(verify(other, graph, &it) == 3 && it.outcome == 3 && it.reason == 1 && it.first == 2532 && it.second == 2420);
    image->bytes[124] = 7; /* code that may be written */
    CHECK(verify(image, graph, &it) == 1 && it.outcome == 1 && it.reason == 2 && it.first == 124 && it.second == 0);
    image->bytes[124] = 5;
    graph->bytes[graph->length - 1] = ' '; /* the last of its lines has no newline */
    CHECK(verify(image, graph, &it) == 2 && it.outcome == 2 && it.reason == 1 && it.first == 78 && it.second == 0);
    graph->bytes[graph->length - 1] = '\n';
}

/* The plan of an image with each field another number, between bytes that stay as they are. */
static void plans(struct file *image)
{
    struct {
        uint8_t before[16];
        struct rvcfi_image_plan plan;
        uint8_t behind[16];
    } it, was;

    memset(&it, 0xa5, sizeof it);
    was = it;
    CHECK(rvcfi_plan(image->bytes, image->length - 1, &it.plan) == 1 && memcmp(&it, &was, sizeof it) == 0);
    image->bytes[SHADOW_SIZE_AT + 2] = 8; /* 80000h: version 2 */
    CHECK(rvcfi_plan(image->bytes, image->length, &it.plan) == 0);
    image->bytes[SHADOW_SIZE_AT + 2] = 1;
    CHECK(it.plan.version == 2 && it.plan.harts == 8 && it.plan.entry == 0x4000000c);
    CHECK(it.plan.code_offset == 0x1000 && it.plan.code_length == 2420);
    CHECK(it.plan.code_address == 0x40000000 && it.plan.code_size == 0x100000);
    CHECK(it.plan.data_offset == 0x2000 && it.plan.data_length == 151);
    CHECK(it.plan.data_address == 0x10000 && it.plan.data_end == 0x10001000);
    CHECK(it.plan.shadow_address == 0x60000000 && it.plan.shadow_size == 0x80000);
    CHECK(memcmp(it.before, was.before, sizeof it.before) == 0 && memcmp(it.behind, was.behind, sizeof it.behind) == 0);
    CHECK(rvcfi_plan(image->bytes, image->length, &it.plan) == 0);
    CHECK(it.plan.version == 1 && it.plan.harts == 1 && it.plan.shadow_size == 0x10000);
}

/* An image without data: the plan's offset of data is the end of the file. */
static void no_data(const struct file *image)
{
    struct file cut = *image;
    struct rvcfi_image_plan plan;

    cut.length = 0x2000;
    cut.bytes[DATA_LENGTH_AT] = 0;
    CHECK(rvcfi_plan(cut.bytes, cut.length, &plan) == 0 && plan.data_offset == 0x2000 && plan.data_length == 0);
    cut.bytes[DATA_LENGTH_AT] = 151;
}

/* The list 63 64 93, as much of it as there is room for, and the places behind that stay as they are. */
static void lists(const struct file *without, const struct file *with)
{
    const uint16_t listed[] = {63, 64, 93};
    uint16_t calls[10];
    uint32_t count;
    size_t room, k;

    for (room = 0; room <= 9; room++) {
        memset(calls, 0xa5, sizeof calls);
        count = 77;
        CHECK(rvcfi_calls(with->bytes, with->length, calls, room, &count) == 0 && count == 3);
        for (k = 0; k < 10; k++)
            CHECK(calls[k] == (k < 3 && k < room ? listed[k] : 0xa5a5));
        count = 77;
        memset(calls, 0xa5, sizeof calls);
        CHECK(rvcfi_calls(without->bytes, without->length, calls, room, &count) == 1 && count == 77 && calls[0] == 0xa5a5);
        CHECK(rvcfi_calls(with->bytes, with->length - 1, calls, room, &count) == 2 && count == 77 && calls[0] == 0xa5a5);
        CHECK(rvcfi_calls(with->bytes, 0, calls, room, &count) == 2 && count == 77 && calls[0] == 0xa5a5);
    }
}

int main(int argc, char **argv)
{
    struct file visitors[2], plugin[2];

    if (argc != 5 || files_read(stderr, (const char *const *)(argv + 1), visitors) != STATUS_OK ||
        files_read(stderr, (const char *const *)(argv + 3), plugin) != STATUS_OK)
        return STATUS_USAGE;
    verdicts(&visitors[0], &visitors[1], &plugin[0]);
    plans(&visitors[0]);
    no_data(&visitors[0]);
    lists(&visitors[1], &plugin[1]);
    free(visitors[0].bytes);
    free(visitors[1].bytes);
    free(plugin[0].bytes);
    free(plugin[1].bytes);
    return checks_failed != 0;
}

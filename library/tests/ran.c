/* ran.c: what rvcfi_run writes, and where: ran IMAGE GRAPH OTHER.graph
 *
 * The pair is the tutorial's visitors, and the run the evening of its section 3; the other graph is that of its plugin. Each request of
 * memory fails in turn. C11. */
#include "check.h"
#include "counted.h"
#include "file.h"
#include "rvcfi_run.h"

#include <string.h>

#define IS_AT(field, offset, size) \
    _Static_assert(offsetof(struct rvcfi_run_result, field) == (offset) && sizeof(((struct rvcfi_run_result *)0)->field) == (size), #field)

_Static_assert(sizeof(struct rvcfi_run_result) == 64, "rvcfi_run_result");
IS_AT(outcome, 0, 4);
IS_AT(reason, 4, 4);
IS_AT(first, 8, 8);
IS_AT(second, 16, 8);
IS_AT(stop, 24, 4);
IS_AT(hart, 28, 4);
IS_AT(value, 32, 8);
IS_AT(address, 40, 8);
IS_AT(steps, 48, 8);
IS_AT(written, 56, 8);

#define ROOM 24

static const char evening[] = "n\3Anng\1m\5helloo\6wisdom";
static const char greeted[] = "hi Ann\nmessage 532\n";
static const char turns[] = "rvcfi-script 1\nend\n", cut[] = "rvcfi-script 1\nstop\n", harts[] = "rvcfi-script 2\nharts 2\nend\n";

#define GREETED (sizeof greeted - 1)

/* What is asked, and the bytes that it has for the output, of which the first `room` are passed. */
struct asked {
    struct file image, graph;
    const char *script;
    uint64_t limit;
    size_t room;
    uint8_t output[ROOM];
};

static struct rvcfi_run_result ran(struct asked *asked)
{
    struct rvcfi_run_result run;
    uint32_t outcome;

    memset(&run, 0xa5, sizeof run);
    memset(asked->output, 0xa5, ROOM);
    outcome = rvcfi_run(asked->image.bytes, asked->image.length, asked->graph.bytes, asked->graph.length, (const uint8_t *)asked->script,
                        strlen(asked->script), (const uint8_t *)evening, sizeof evening - 1, asked->limit, asked->output, asked->room, &run);
    CHECK(outcome == run.outcome);
    return run;
}

/* Whether the output has the first bytes of what was put, and is as it was behind them. */
static int has_first(const struct asked *asked, size_t count)
{
    int holds = memcmp(asked->output, greeted, count) == 0;
    size_t k;

    for (k = count; k < ROOM; k++)
        holds = holds && asked->output[k] == 0xa5;
    return holds;
}

static int stops(const struct rvcfi_run_result *run, uint32_t stop, uint64_t value, uint64_t steps)
{
    return run->outcome == RVCFI_RUN_RAN && run->reason == 0 && run->first == 0 && run->second == 0 && run->stop == stop &&
           run->hart == 0 && run->value == value && run->address == 0 && run->steps == steps && run->written == GREETED;
}

/* The whole evening, and all of it but its last step, with each room for its output. */
static void evenings(struct asked asked)
{
    struct rvcfi_run_result run;

    for (asked.room = 0; asked.room <= ROOM; asked.room++) {
        run = ran(&asked);
        CHECK(stops(&run, RVCFI_STOP_EXIT, 1, 597) && has_first(&asked, asked.room < GREETED ? asked.room : GREETED));
    }
    asked.room = ROOM;
    asked.script = turns;
    run = ran(&asked);
    CHECK(stops(&run, RVCFI_STOP_EXIT, 1, 597) && has_first(&asked, GREETED));
    asked.limit = 596;
    run = ran(&asked);
    CHECK(stops(&run, RVCFI_STOP_LIMIT, 0, 596) && has_first(&asked, GREETED));
}

/* That nothing is run, and why. */
static void refused_for(struct asked asked, uint32_t outcome, uint32_t reason, uint64_t first, uint64_t second)
{
    struct rvcfi_run_result run = ran(&asked);

    CHECK(run.outcome == outcome && run.reason == reason && run.first == first && run.second == second && has_first(&asked, 0));
}

static void refusals(struct asked asked, const struct file *other)
{
    struct asked changed = asked;

    changed.image.length = 0;
    refused_for(changed, RVCFI_RUN_BAD_IMAGE, 1, 0, 0);
    changed = asked;
    changed.graph.length = 0;
    refused_for(changed, RVCFI_RUN_BAD_GRAPH, 1, 1, 0);
    changed.graph = *other;
    refused_for(changed, RVCFI_RUN_REJECTED, 1, 2420, 2532);
    changed = asked;
    changed.script = cut;
    refused_for(changed, RVCFI_RUN_BAD_SCRIPT, 1, 2, 0);
    changed.script = harts;
    refused_for(changed, RVCFI_RUN_HARTS, 0, 2, 0);
}

/* Each request fails, and all behind it or none. */
static unsigned long want_of_memory(struct asked asked)
{
    unsigned long all, k;

    begin(0, false);
    CHECK(ran(&asked).outcome == RVCFI_RUN_RAN && blocks == 0);
    all = requests;
    for (k = 0; k < 2 * all; k++) {
        begin(k / 2 + 1, k % 2 != 0);
        refused_for(asked, RVCFI_RUN_NO_MEMORY, 0, 0, 0);
        CHECK(blocks == 0);
    }
    begin(0, false);
    CHECK(ran(&asked).outcome == RVCFI_RUN_RAN && requests == all);
    return all;
}

int main(int argc, char **argv)
{
    struct asked asked = {{NULL, 0}, {NULL, 0}, "", 1000000, ROOM, {0}};
    struct file files[2], other;

    if (argc != 4 || files_read(stderr, (const char *const *)(argv + 1), files) != STATUS_OK || file_read(argv[3], &other) != STATUS_OK)
        return STATUS_USAGE;
    asked.image = files[0];
    asked.graph = files[1];
    evenings(asked);
    refusals(asked, &other);
    printf("rvcfi_run %lu requests\n", want_of_memory(asked));
    free(files[0].bytes);
    free(files[1].bytes);
    free(other.bytes);
    return checks_failed != 0;
}

/* loader.c: loads a plugin that others made: loader IMAGE GRAPH CALLS STEPS
 *
 * CALLS are the numbers of the system calls that the host allows, as 63,64,93. The image is loaded where it is accepted with the
 * graph and the graph lists no other numbers, and then runs for at most STEPS steps, 1 to 1000000000: its input is standard
 * input, its output goes to standard output, and what the host says goes to standard error, so that no output can be taken
 * for it. The statuses are those of `rvcfi run`, with 1 for a list that is not allowed and 20 where nothing ran.
 *
 * Both files are read into memory of this program, and nothing else is asked or loaded. Without Unicorn (RVCFI_UNICORN is
 * not defined) the image is not run. docs/MACHINE.md, "What a loader must do", says what each step is for. */
#include "emulator.h"
#include "file.h"
#include "rvcfi.h"
#include "words.h"

#include <inttypes.h>
#include <stdbool.h>
#include <stdio.h>
#include <stdlib.h>

#define MOST_STEPS 1000000000u
#define MOST_ALLOWED 64u

struct allowed {
    uint16_t numbers[MOST_ALLOWED];
    size_t count;
};

/* A number from 0 to `most` in digits alone; `end` gets what comes behind it. */
static bool number_of(const char *text, uint64_t most, uint64_t *number, const char **end)
{
    uint64_t value = 0;
    const char *at = text;

    while (*at >= '0' && *at <= '9' && value <= most) {
        value = value * 10 + (uint64_t)(*at - '0');
        at++;
    }
    *number = value;
    *end = at;
    return at != text && value <= most;
}

/* The numbers of a word such as 63,64,93. */
static bool allowed_of(const char *text, struct allowed *allowed)
{
    uint64_t number;

    allowed->count = 0;
    do {
        if (allowed->count == MOST_ALLOWED || !number_of(text, RVCFI_CALLS_GREATEST, &number, &text))
            return false;
        allowed->numbers[allowed->count++] = (uint16_t)number;
    } while (*text++ == ',');
    return text[-1] == '\0';
}

static bool is_allowed(const struct allowed *allowed, uint16_t number)
{
    size_t k;

    for (k = 0; k < allowed->count; k++)
        if (allowed->numbers[k] == number)
            return true;
    return false;
}

/* Whether the image and the graph are accepted. */
static enum status verified(const struct file *image, const struct file *graph)
{
    struct rvcfi_verdict verdict;
    char words[WORDS_MOST];

    if (rvcfi_verify(image->bytes, image->length, graph->bytes, graph->length, &verdict) == RVCFI_ACCEPTED)
        return STATUS_OK;
    words_of_verdict(&verdict, words);
    fprintf(stderr, "not loaded: %s\n", verdict.outcome == RVCFI_NO_MEMORY ? "no memory" : words);
    return verdict.outcome == RVCFI_NO_MEMORY ? STATUS_MEMORY : STATUS_REFUSED;
}

/* Whether the graph lists the system calls of its image, and all of them are allowed. */
static enum status listed(const struct file *graph, const struct allowed *allowed)
{
    uint16_t numbers[RVCFI_CALLS_MOST] = {0};
    uint32_t count = 0;
    uint32_t k;

    switch (rvcfi_calls(graph->bytes, graph->length, numbers, RVCFI_CALLS_MOST, &count)) {
    case RVCFI_CALLS_LISTED:
        break;
    case RVCFI_CALLS_NO_MEMORY:
        fprintf(stderr, "not loaded: no memory\n");
        return STATUS_MEMORY;
    default:
        fprintf(stderr, "not loaded: not this list: the graph lists no system calls\n");
        return STATUS_REFUSED;
    }
    for (k = 0; k < count; k++)
        if (!is_allowed(allowed, numbers[k])) {
            fprintf(stderr, "not loaded: not this list: %u is not allowed\n", (unsigned)numbers[k]);
            return STATUS_REFUSED;
        }
    return STATUS_OK;
}

#ifdef RVCFI_UNICORN
static const char *const handlers[] = {"__cfi_bad_target", "__cfi_bad_return", "__cfi_deep"};

static enum status tell_break(const struct rvcfi_image_plan *plan, const char *hart, uint64_t pc)
{
    uint64_t handler = (pc - plan->code_address) / 4;

    if (handler < sizeof handlers / sizeof handlers[0]) {
        fprintf(stderr, "stop %shandler %s\n", hart, handlers[handler]);
        return STATUS_HANDLER;
    }
    fprintf(stderr, "stop %sbreak %08" PRIx64 "\n", hart, pc);
    return STATUS_BREAK;
}

/* Tells how a run stopped, in the words of `rvcfi run`. */
static enum status tell(const struct rvcfi_image_plan *plan, const struct stop *stop)
{
    const char *hart = plan->version == 2 ? "hart 0 " : "";

    switch (stop->kind) {
    case STOP_EXIT:
        fprintf(stderr, "stop %sexit %" PRIu64 "\n", hart, stop->number);
        return STATUS_OK;
    case STOP_BREAK:
        return tell_break(plan, hart, stop->pc);
    case STOP_LOAD:
        fprintf(stderr, "stop %sload %08" PRIx64 " %016" PRIx64 "\n", hart, stop->pc, stop->number);
        return STATUS_BREAK;
    case STOP_LIMIT:
        fprintf(stderr, "stop limit\n");
        return STATUS_LIMIT;
    case STOP_OUTPUT:
        return STATUS_WRITE;
    default:
        fprintf(stderr, "not run: the emulator failed\n");
        return STATUS_NOT_RUN;
    }
}

static enum status run(const uint8_t *image, const struct rvcfi_image_plan *plan, uint64_t steps)
{
    struct stop stop = emulator_run(image, plan, steps);

    return fflush(stdout) == 0 ? tell(plan, &stop) : STATUS_WRITE;
}
#else
static enum status run(const uint8_t *image, const struct rvcfi_image_plan *plan, uint64_t steps)
{
    (void)image;
    (void)plan;
    (void)steps;
    fprintf(stderr, "not run: this loader was built without Unicorn\n");
    return STATUS_NOT_RUN;
}
#endif

static enum status load(const struct file files[2], const struct allowed *allowed, uint64_t steps)
{
    struct rvcfi_image_plan plan;
    enum status status = verified(&files[0], &files[1]);

    if (status == STATUS_OK)
        status = listed(&files[1], allowed);
    if (status != STATUS_OK)
        return status;
    if (rvcfi_plan(files[0].bytes, files[0].length, &plan) != RVCFI_PLANNED)
        return STATUS_REFUSED; /* which no accepted image comes to */
    return run(files[0].bytes, &plan, steps);
}

int main(int argc, char **argv)
{
    struct file files[2];
    struct allowed allowed;
    uint64_t steps;
    const char *end;
    enum status status;

    if (argc != 5 || !allowed_of(argv[3], &allowed) || !number_of(argv[4], MOST_STEPS, &steps, &end) || *end != '\0' || steps == 0) {
        fprintf(stderr, "usage: loader IMAGE GRAPH CALLS STEPS\n");
        return STATUS_USAGE;
    }
    status = files_read(stderr, (const char *const *)(argv + 1), files);
    if (status != STATUS_OK)
        return (int)status;
    status = load(files, &allowed, steps);
    free(files[0].bytes);
    free(files[1].bytes);
    return (int)status;
}

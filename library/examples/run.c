/* run.c: runs an image by the library: run IMAGE GRAPH SCRIPT INPUT STEPS. SCRIPT and INPUT may be none.
 *
 * Prints the lines output, stop and steps in the words of `rvcfi run`, but of no hart, and ends with its status.
 */
#include "file.h"
#include "rvcfi_run.h"
#include "words.h"

#include <inttypes.h>
#include <stdio.h>
#include <stdlib.h>
#include <string.h>

/* As many bytes of output are kept; of more the first ones. */
#define OUTPUT_MOST ((size_t)1 << 20)

enum { IMAGE, GRAPH, SCRIPT, INPUT, FILES };

static const char *const handlers[] = {
    [RVCFI_HANDLER_BAD_TARGET] = "__cfi_bad_target",
    [RVCFI_HANDLER_BAD_RETURN] = "__cfi_bad_return",
    [RVCFI_HANDLER_DEEP] = "__cfi_deep",
};

static const char *const reasons[] = {[RVCFI_FORM] = "Form", [RVCFI_RANGE] = "Range", [RVCFI_ORDER] = "Order"};

static enum status told_stop(const struct rvcfi_run_result *run)
{
    switch (run->stop) {
    case RVCFI_STOP_EXIT:
        printf("stop exit %" PRIu64 "\n", run->value);
        return STATUS_OK;
    case RVCFI_STOP_HANDLER:
        printf("stop handler %s\n", handlers[run->value]);
        return STATUS_HANDLER;
    case RVCFI_STOP_BREAK:
        printf("stop break %08" PRIx64 "\n", run->value);
        return STATUS_BREAK;
    case RVCFI_STOP_LOAD:
        printf("stop load %08" PRIx64 " %016" PRIx64 "\n", run->value, run->address);
        return STATUS_BREAK;
    default:
        printf("stop limit\n");
        return STATUS_LIMIT;
    }
}

static enum status told_run(const struct rvcfi_run_result *run, const uint8_t *output)
{
    size_t kept = run->written < OUTPUT_MOST ? (size_t)run->written : OUTPUT_MOST;
    enum status status;

    printf("output %" PRIu64 "\n", run->written);
    fwrite(output, 1, kept, stdout);
    printf("\n");
    status = told_stop(run);
    printf("steps %" PRIu64 "\n", run->steps);
    return status;
}

static enum status told_refusal(const struct rvcfi_run_result *run)
{
    struct rvcfi_verdict verdict = {run->outcome, run->reason, run->first, run->second};
    char words[WORDS_MOST];

    if (run->outcome == RVCFI_RUN_NO_MEMORY)
        return STATUS_MEMORY;
    if (run->outcome == RVCFI_RUN_BAD_SCRIPT)
        printf("refused 25 Script %" PRIu64 " %s\n", run->first, reasons[run->reason]);
    else if (run->outcome == RVCFI_RUN_HARTS)
        printf("refused 26 Harts %" PRIu64 "\n", run->first);
    else {
        words_of_verdict(&verdict, words);
        printf("%s\n", words);
    }
    return STATUS_REFUSED;
}

static enum status run_files(const struct file files[FILES], uint64_t limit)
{
    uint8_t *output = calloc(OUTPUT_MOST, 1);
    struct rvcfi_run_result run;
    enum status status;

    if (output == NULL)
        return STATUS_MEMORY;
    rvcfi_run(files[IMAGE].bytes, files[IMAGE].length, files[GRAPH].bytes, files[GRAPH].length, files[SCRIPT].bytes,
              files[SCRIPT].length, files[INPUT].bytes, files[INPUT].length, limit, output, OUTPUT_MOST, &run);
    status = run.outcome == RVCFI_RUN_RAN ? told_run(&run, output) : told_refusal(&run);
    free(output);
    return status;
}

/* Reads the files; a word none is an empty one where it may stand. */
static enum status read_all(char **names, struct file files[FILES])
{
    enum status status = STATUS_OK;

    for (int k = 0; k < FILES && status == STATUS_OK; k++)
        status = file_read(k >= SCRIPT && strcmp(names[k], "none") == 0 ? "/dev/null" : names[k], &files[k]);
    return status;
}

int main(int argc, char **argv)
{
    struct file files[FILES] = {{NULL, 0}, {NULL, 0}, {NULL, 0}, {NULL, 0}};
    enum status status;

    if (argc != 6) {
        printf("usage: run IMAGE GRAPH SCRIPT INPUT STEPS\n");
        return STATUS_USAGE;
    }
    status = read_all(argv + 1, files);
    if (status == STATUS_OK)
        status = run_files(files, strtoull(argv[5], NULL, 10));
    for (int k = 0; k < FILES; k++)
        free(files[k].bytes);
    return fflush(stdout) == 0 && !ferror(stdout) ? (int)status : STATUS_WRITE;
}

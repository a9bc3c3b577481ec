/* threads.c: a thread for each pair asks of it many times, all at once: threads TURNS (WORDS IMAGE GRAPH) ..
 *
 * WORDS are what `rvcfi verify` says of the pair; what a run comes to is asked before there are threads. The archives are compiled without
 * sanitizers: of them ThreadSanitizer sees what they ask of the heap, and the answers tell the rest. */
#include "check.h"
#include "file.h"
#include "rvcfi.h"
#include "rvcfi_run.h"
#include "words.h"

#include <pthread.h>
#include <stdlib.h>
#include <string.h>

#define MOST_PAIRS 8
#define STEPS 200

struct asker {
    pthread_t thread;
    const char *words;
    struct file files[2];
    struct rvcfi_run_result run; /* before there are threads */
    int turns;
    int wrong;
};

static struct rvcfi_run_result ran(const struct file files[2])
{
    struct rvcfi_run_result run;
    uint8_t output[1] = {0};
    static const uint8_t none[1];

    rvcfi_run(files[0].bytes, files[0].length, files[1].bytes, files[1].length, none, 0, none, 0, STEPS, output, 1, &run);
    return run;
}

static void *ask(void *given)
{
    struct asker *asker = given;
    struct rvcfi_verdict verdict;
    struct rvcfi_image_plan plan;
    struct rvcfi_run_result run;
    char words[WORDS_MOST];
    uint16_t calls[RVCFI_CALLS_MOST] = {0};
    uint32_t count = 0;
    int k;

    for (k = 0; k < asker->turns; k++) {
        rvcfi_verify(asker->files[0].bytes, asker->files[0].length, asker->files[1].bytes, asker->files[1].length, &verdict);
        words_of_verdict(&verdict, words);
        asker->wrong += strcmp(words, asker->words) != 0;
        rvcfi_plan(asker->files[0].bytes, asker->files[0].length, &plan);
        rvcfi_calls(asker->files[1].bytes, asker->files[1].length, calls, RVCFI_CALLS_MOST, &count);
        run = ran(asker->files);
        asker->wrong += run.outcome != verdict.outcome || memcmp(&run, &asker->run, sizeof run) != 0;
    }
    return NULL;
}

int main(int argc, char **argv)
{
    static struct asker askers[MOST_PAIRS];
    int count = (argc - 2) / 3;
    int k;

    if (count < 2 || count > MOST_PAIRS || argc != 2 + 3 * count)
        return STATUS_USAGE;
    for (k = 0; k < count; k++) {
        askers[k].words = argv[2 + 3 * k];
        askers[k].turns = atoi(argv[1]);
        if (files_read(stderr, (const char *const *)(argv + 3 + 3 * k), askers[k].files) != STATUS_OK)
            return STATUS_READ;
        askers[k].run = ran(askers[k].files);
    }
    for (k = 0; k < count; k++)
        CHECK(pthread_create(&askers[k].thread, NULL, ask, &askers[k]) == 0);
    for (k = 0; k < count; k++) {
        pthread_join(askers[k].thread, NULL);
        CHECK(askers[k].wrong == 0);
        free(askers[k].files[0].bytes);
        free(askers[k].files[1].bytes);
    }
    return checks_failed != 0;
}

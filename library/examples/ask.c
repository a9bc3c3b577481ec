/* ask.c: prints what `rvcfi verify IMAGE GRAPH` prints, with the same exit status, by the library. */
#include "file.h"
#include "rvcfi.h"
#include "words.h"

#include <stdio.h>
#include <stdlib.h>

static enum status status_of(const struct rvcfi_verdict *verdict)
{
    switch (verdict->outcome) {
    case RVCFI_ACCEPTED:
        return STATUS_OK;
    case RVCFI_NO_MEMORY:
        return STATUS_MEMORY;
    default:
        return STATUS_REFUSED;
    }
}

static enum status ask(const struct file *image, const struct file *graph)
{
    struct rvcfi_verdict verdict;
    char words[WORDS_MOST];

    rvcfi_verify(image->bytes, image->length, graph->bytes, graph->length, &verdict);
    words_of_verdict(&verdict, words);
    if (verdict.outcome != RVCFI_NO_MEMORY)
        printf("%s\n", words);
    return status_of(&verdict);
}

int main(int argc, char **argv)
{
    struct file files[2];
    enum status status;

    if (argc != 3) {
        printf("usage: ask IMAGE GRAPH\n");
        return STATUS_USAGE;
    }
    status = files_read(stdout, (const char *const *)(argv + 1), files);
    if (status == STATUS_OK) {
        status = ask(&files[0], &files[1]);
        free(files[0].bytes);
        free(files[1].bytes);
    }
    return fflush(stdout) == 0 && !ferror(stdout) ? (int)status : STATUS_WRITE;
}

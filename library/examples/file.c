/* file.c: whole files, read as `rvcfi` reads them. */
#include "file.h"

#include <stdlib.h>

/* A block at least twice as large that holds the same bytes, or NULL, where the old one is freed. */
static uint8_t *larger(uint8_t *bytes, size_t *room)
{
    size_t more = *room * 2 < FILE_MOST + 1 ? *room * 2 : FILE_MOST + 1;
    uint8_t *moved = realloc(bytes, more);

    if (moved == NULL)
        free(bytes);
    *room = more;
    return moved;
}

/* Reads on until the file ends or has one byte too many. */
static enum status read_all(FILE *stream, struct file *file)
{
    size_t room = 65536;
    size_t length = 0;
    uint8_t *bytes = malloc(room);

    while (bytes != NULL) {
        length += fread(bytes + length, 1, room - length, stream);
        if (length < room || length > FILE_MOST)
            break;
        bytes = larger(bytes, &room);
    }
    if (bytes == NULL)
        return STATUS_MEMORY;
    if (ferror(stream) || length > FILE_MOST) {
        free(bytes);
        return ferror(stream) ? STATUS_READ : STATUS_TOO_LONG;
    }
    file->bytes = bytes;
    file->length = length;
    return STATUS_OK;
}

enum status file_read(const char *name, struct file *file)
{
    FILE *stream = fopen(name, "rb");
    enum status status = STATUS_READ;

    if (stream != NULL) {
        status = read_all(stream, file);
        fclose(stream);
    }
    return status;
}

enum status files_read(FILE *told, const char *const names[2], struct file files[2])
{
    enum status status;
    int k;

    for (k = 0; k < 2; k++) {
        status = file_read(names[k], &files[k]);
        if (status == STATUS_READ)
            fprintf(told, "read fault %s\n", names[k]);
        if (status == STATUS_TOO_LONG)
            fprintf(told, "too long %s\n", names[k]);
        if (status != STATUS_OK) {
            if (k == 1)
                free(files[0].bytes);
            return status;
        }
    }
    return STATUS_OK;
}

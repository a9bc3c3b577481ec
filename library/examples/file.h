/* file.h: whole files, read as `rvcfi` reads them. */
#ifndef RVCFI_EXAMPLE_FILE_H
#define RVCFI_EXAMPLE_FILE_H

#include <stddef.h>
#include <stdint.h>
#include <stdio.h>

/* A file has at most so many bytes: 2^26. */
#define FILE_MOST ((size_t)1 << 26)

struct file {
    uint8_t *bytes; /* never NULL once it is read; the caller frees it */
    size_t length;
};

/* The statuses of docs/COMMANDS.md. */
enum status {
    STATUS_OK = 0,
    STATUS_REFUSED = 1,
    STATUS_USAGE = 2,
    STATUS_READ = 3,
    STATUS_WRITE = 4,
    STATUS_MEMORY = 5,
    STATUS_TOO_LONG = 6,
    STATUS_HANDLER = 10,
    STATUS_BREAK = 11,
    STATUS_LIMIT = 12,
    STATUS_NOT_RUN = 20 /* of the loader alone: the emulator failed, or there is none */
};

/* Reads a file whole: STATUS_OK, or STATUS_READ, STATUS_MEMORY or STATUS_TOO_LONG, and then nothing is kept. */
enum status file_read(const char *name, struct file *file);

/* Reads two files in this order. Of the first that fails the line of docs/COMMANDS.md is told, and nothing is kept. */
enum status files_read(FILE *told, const char *const names[2], struct file files[2]);

#endif

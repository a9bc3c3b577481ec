/* The system calls over the host's C library, for the same programs on the host. */
#include <unistd.h>

#include "system.h"

long read_input(char *to, long most) { return read(0, to, (size_t)most); }
long write_output(const char *from, long count) { return write(1, from, (size_t)count); }
void leave(int status) { _exit(status); }

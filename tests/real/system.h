/* The system calls of start.s; host.c has them over the host's C library. */
long read_input(char *to, long most);
long write_output(const char *from, long count);
_Noreturn void leave(int status);

/* What picolibc takes from an operating system, over the three system calls of docs/MACHINE.md: a start, three streams, a heap that is an
   array; and what the machine has not, which fails with ENOSYS. */
#include <errno.h>
#include <fcntl.h>
#include <stdint.h>
#include <stdio-bufio.h>
#include <stdlib.h>
#include <string.h>
#include <sys/stat.h>
#include <sys/time.h>
#include <sys/times.h>
#include <unistd.h>
#include <utime.h>

#ifndef HEAP_BYTES
#define HEAP_BYTES (64L << 20)
#endif

int main(int, char **, char **);
void __call_exitprocs(int, void *);

/* One call of the machine. Each caller has its number as a constant, so that none can be made to make another's call. */
#define SYSTEM_CALL(number, first, second, third) \
    ({ \
        register long a0 __asm__("a0") = (long)(first); \
        register long a1 __asm__("a1") = (long)(second); \
        register long a2 __asm__("a2") = (long)(third); \
        register long a7 __asm__("a7") = (number); \
        __asm__ volatile("ecall" : "+r"(a0) : "r"(a1), "r"(a2), "r"(a7) : "memory"); \
        a0; \
    })

static long answer(long value)
{
    if (value >= 0)
        return value;
    errno = (int)-value;
    return -1;
}

ssize_t read(int file, void *to, size_t most) { return answer(SYSTEM_CALL(63, file, to, most)); }
ssize_t write(int file, const void *from, size_t count) { return answer(SYSTEM_CALL(64, file, from, count)); }

/* The streams. Nothing is at the other end but the input and the output, so none can be moved. */
off_t lseek(int file, off_t offset, int whence)
{
    (void)file, (void)offset, (void)whence;
    errno = ESPIPE;
    return -1;
}

int close(int file)
{
    (void)file;
    return 0;
}

static char input[BUFSIZ], output[BUFSIZ], errors[1];
static struct __file_bufio in = FDEV_SETUP_BUFIO(0, input, sizeof input, read, write, lseek, close, __SRD, 0);
static struct __file_bufio out = FDEV_SETUP_BUFIO(1, output, sizeof output, read, write, lseek, close, __SWR, __BLBF);
static struct __file_bufio err = FDEV_SETUP_BUFIO(2, errors, 0, read, write, lseek, close, __SWR, 0);
FILE *const stdin = &in.xfile.cfile.file;
FILE *const stdout = &out.xfile.cfile.file;
FILE *const stderr = &err.xfile.cfile.file;

_Noreturn void _exit(int status)
{
    fflush(stdout);
    for (;;)
        SYSTEM_CALL(93, status, 0, 0);
}

/* What was told to atexit, and the end. */
_Noreturn void exit(int status)
{
    __call_exitprocs(status, NULL);
    _exit(status);
}

/* The program is entered here, by each hart with its number. The library is for one, so that others wait for the end. */
_Noreturn void _start(long hart)
{
    static char *words[] = {(char *)"program", NULL}, *none[] = {NULL};
    while (hart)
        __asm__ volatile("");
    exit(main(1, words, none));
}

/* The heap grows through its array and never gives back. */
static char heap[HEAP_BYTES] __attribute__((aligned(16)));

void *sbrk(ptrdiff_t more)
{
    static char *end = heap;
    if (more > heap + HEAP_BYTES - end || more < heap - end) {
        errno = ENOMEM;
        return (void *)-1;
    }
    end += more;
    return end - more;
}

/* What the machine has not. */
static int absent(void)
{
    errno = ENOSYS;
    return -1;
}

int open(const char *path, int how, ...) { return (void)path, (void)how, absent(); }
int rename(const char *from, const char *to) { return (void)from, (void)to, absent(); }
int unlink(const char *path) { return (void)path, absent(); }
int stat(const char *restrict path, struct stat *restrict to) { return (void)path, (void)to, absent(); }
int fstat(int file, struct stat *to) { return (void)file, (void)to, absent(); }
int lstat(const char *restrict path, struct stat *restrict to) { return (void)path, (void)to, absent(); }
int fchmod(int file, mode_t mode) { return (void)file, (void)mode, absent(); }
int fchown(int file, uid_t user, gid_t group) { return (void)file, (void)user, (void)group, absent(); }
int utime(const char *path, const struct utimbuf *to) { return (void)path, (void)to, absent(); }
int isatty(int file) { return (void)file, errno = ENOTTY, 0; }
int getentropy(void *to, size_t count) { return (void)to, (void)count, absent(); }
int kill(pid_t process, int signal) { return (void)process, (void)signal, absent(); }
pid_t getpid(void) { return 1; }

/* The clock stands still: many programs ask it, few of them whether it answered. */
int gettimeofday(struct timeval *restrict to, void *restrict zone) { return (void)zone, *to = (struct timeval){0}, 0; }
clock_t times(struct tms *to) { return *to = (struct tms){0}, 0; }

/* Texts of a program's own for strerror: there are none. */
char *_user_strerror(int number, int inner, int *to) { return (void)number, (void)inner, (void)to, NULL; }

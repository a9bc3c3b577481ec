/* Keeps a mark in the low bits of pointers to functions, which are aligned for that. Hardened functions are not. */
#define ALIGNED __attribute__((aligned(16), noinline))

typedef int (*function)(void);

static ALIGNED int two(void) { return 2; }
static ALIGNED int three(void) { return 3; }

function volatile known[2] = { two, three };
unsigned long volatile marked[2];

static int called(unsigned long pointer)
{
    return ((function)(pointer & ~15ul))();
}

int main(void)
{
    for (int k = 0; k < 2; k++)
        marked[k] = (unsigned long)known[k] | 8;
    return called(marked[0]) + called(marked[1]);
}

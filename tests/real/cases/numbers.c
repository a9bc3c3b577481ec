/* System calls by a function that is given the number: a constant, and one that no instruction has. */
__attribute__((noinline)) static long called(long number, long one)
{
    register long a7 __asm__("a7") = number;
    register long a0 __asm__("a0") = one;
    __asm__ volatile("ecall" : "+r"(a0) : "r"(a7) : "memory");
    return a0;
}

volatile long kept = 1200;

int main(void)
{
    return (int)called(NUMBER, 1);
}

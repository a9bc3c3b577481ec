/* A function of twelve arguments: clang passes those of a `static` one in more registers than the ABI has. */
#ifndef KIND
#define KIND static
#endif

long numbers[12] = { 9, 2, 7, 3, 8, 1, 6, 4, 5, 12, 11, 10 };

__attribute__((noinline)) KIND long mixed(long a, long b, long c, long d, long e, long f, long g, long h, long i, long j, long k, long l)
{
    return a - b + c - d + e - f + g - h + i - j + k - l;
}

int main(void)
{
    long *n = numbers;
    long one = mixed(n[0], n[1], n[2], n[3], n[4], n[5], n[6], n[7], n[8], n[9], n[10], n[11]);
    return (int)(one + mixed(n[11], n[1], n[2], n[3], n[4], n[5], n[6], n[7], n[8], n[9], n[10], n[0]));
}

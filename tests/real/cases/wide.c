/* The upper half of a product of 128 bits, in the way in which gcc's library multiplies the fractions of a `long double`: its
   inline assembly takes __muldi3 to change a0 to a3 and ra alone. */
typedef unsigned long word;

#ifdef __riscv
static inline word times(word a, word b)
{
    register word product __asm__("a0") = a;
    register word factor __asm__("a1") = b;
    __asm__ volatile("call __muldi3" : "+r"(product), "+r"(factor) : : "ra", "a2", "a3");
    return product;
}
#else
static inline word times(word a, word b) { return a * b; }
#endif

__attribute__((noinline)) static word upper(word a, word b)
{
    word low = 0xffffffff;
    word cross = times(a >> 32, b & low), other = times(a & low, b >> 32);
    word carried = (times(a & low, b & low) >> 32) + (cross & low) + (other & low);
    return times(a >> 32, b >> 32) + (cross >> 32) + (other >> 32) + (carried >> 32);
}

volatile word one = 0xfedcba9876543210, another = 0x89abcdef01234567;

int main(void)
{
    word found = upper(one, another);
    return (int)((found ^ found >> 32 ^ found >> 48) & 255);
}

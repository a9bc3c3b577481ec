/* What a compiler calls for products, quotients and remainders, which RV64I has no instructions for. In gcc's own library the
   signed quotients return through t0, which is a computed jump to a place that no graph lists (docs/COMPILING.md). */

typedef unsigned long word;

__attribute__((weak)) long __muldi3(long a, long b)
{
    word sum = 0;
    for (word x = (word)a, y = (word)b; y; x <<= 1, y >>= 1)
        if (y & 1)
            sum += x;
    return (long)sum;
}

/* The quotient; the remainder goes to *rest. A divisor of 0 gives all bits one and the dividend, as the M extension does. */
static word divided(word a, word b, word *rest)
{
    word quotient = 0, left = 0;
    for (int bit = 63; bit >= 0; bit--) {
        word carried = left >> 63;
        left = left << 1 | (a >> bit & 1);
        if (carried || left >= b) {
            left -= b;
            quotient |= (word)1 << bit;
        }
    }
    *rest = left;
    return quotient;
}

word __udivdi3(word a, word b)
{
    word rest;
    return divided(a, b, &rest);
}

word __umoddi3(word a, word b)
{
    word rest;
    divided(a, b, &rest);
    return rest;
}

static word size_of(long n) { return n < 0 ? 0 - (word)n : (word)n; }
static long with_sign(word n, int negative) { return (long)(negative ? 0 - n : n); }

long __divdi3(long a, long b)
{
    word rest;
    return with_sign(divided(size_of(a), size_of(b), &rest), (a < 0) != (b < 0));
}

long __moddi3(long a, long b)
{
    word rest;
    divided(size_of(a), size_of(b), &rest);
    return with_sign(rest, a < 0);
}

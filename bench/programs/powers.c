/* Prints three numbers that take products and quotients: a hash by both halves of products of 64 bits, a sum of inverses modulo
   a prime, each a power, and a sum of quotients and remainders with a sign. */
#include "system.h"
#include "text.h"

enum { TURNS = 100000, INVERSES = 10000, PRIME = 1000000007 };

/* Both halves of a product. */
static unsigned long mixed(unsigned long a, unsigned long b)
{
    unsigned __int128 product = (unsigned __int128)a * b;
    return (unsigned long)product ^ (unsigned long)(product >> 64);
}

static unsigned long power(unsigned long base, unsigned exponent)
{
    unsigned long result = 1;
    for (; exponent; exponent >>= 1) {
        if (exponent & 1)
            result = result * base % PRIME;
        base = base * base % PRIME;
    }
    return result;
}

int main(void)
{
    unsigned long state = 1, inverses = 0;
    long quotients = 0;
    for (long k = 0; k < TURNS; k++) {
        int number = (int)(state >> 13), divisor = (int)(k % 255) - 127;
        state = mixed(state ^ 0x9e3779b97f4a7c15ul, 0xd6e8feb86659fd93ul + (unsigned long)k);
        if (divisor)
            quotients += number / divisor + number % divisor + (long)state / divisor % 1000;
    }
    for (unsigned long k = 1; k <= INVERSES; k++)
        inverses += power(k, PRIME - 2);
    put_hex((unsigned)(state >> 32));
    put_hex((unsigned)state);
    put_text("\n");
    put_number((long)inverses);
    put_text("\n");
    put_number(quotients);
    put_text("\n");
    return 0;
}

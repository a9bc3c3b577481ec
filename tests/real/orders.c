/* Orders by letter: functions chosen by a table, and a switch with enough cases for a jump table. */
#include "orders.h"

static long size_of(long n) { return n < 0 ? -n : n; }

static int rising(long a, long b) { return a < b; }
static int falling(long a, long b) { return a > b; }
static int by_size(long a, long b) { return size_of(a) < size_of(b) || (size_of(a) == size_of(b) && a < b); }
static int by_end(long a, long b) { return (a & 15) < (b & 15) || ((a & 15) == (b & 15) && a < b); }
static int even_first(long a, long b) { return (a & 1) < (b & 1) || ((a & 1) == (b & 1) && a < b); }

static const order orders[] = { rising, falling, by_size, by_end, even_first };

order order_of(char letter)
{
    return letter < 'a' || letter > 'e' ? 0 : orders[letter - 'a'];
}

long mixed(char letter, long sum, long number)
{
    switch (letter) {
    case 'a': return sum + number;
    case 'b': return (sum << 1) - number;
    case 'c': return sum ^ size_of(number);
    case 'd': return number & 1 ? sum - 7 : sum + number;
    case 'e': return sum < number ? number : sum;
    case 'f': return sum | 3;
    case 'g': return (sum >> 1) + (number << 2);
    default: return sum;
    }
}

/* Stores much: fills 64 KiB and copies them, again and again, and prints their sum in the end. */
#include "text.h"

enum { WORDS = 8192, TURNS = 60 };

static unsigned long from[WORDS], to[WORDS];

int main(void)
{
    unsigned long sum = 0;
    for (unsigned long turn = 0; turn < TURNS; turn++) {
        for (int k = 0; k < WORDS; k++)
            from[k] = turn + (unsigned long)k;
        for (int k = 0; k < WORDS; k++)
            to[k] = from[k];
        sum += to[turn];
    }
    put_hex((unsigned)sum);
    put_text("\n");
    return 0;
}

/* Prints where its variables stand, by their addresses: initialized, zeroed, of this file alone, and such that other files share. */
#include "../system.h"
#include "../text.h"

#ifdef OTHER
long shared_zeroed[3];
char shared_text[9] = "abcdefgh";
#else
extern long shared_zeroed[3];
extern char shared_text[9];
int common_one;
char common_two[40];
static char byte = 7;
static long word = 0x1122334455667788;
static short zeroed[5];
const int table[] = { 3, 1, 4 };

static void put(const volatile void *address)
{
    put_hex((unsigned)(unsigned long)address);
    put_text("\n");
}

int main(void)
{
    put(&byte);
    put(&word);
    put(zeroed);
    put(table);
    put(&common_one);
    put(common_two);
    put(shared_zeroed);
    put(shared_text);
    return *(volatile char *)&byte;
}
#endif

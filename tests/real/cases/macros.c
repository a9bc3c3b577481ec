/* With -g3 gcc keeps what the compiler's header defines in a group of sections of its own. */
#include <stddef.h>

int main(void)
{
    return (int)sizeof(size_t);
}

/* Prints the SHA-256 hash of the input, read a page at a time. */
#include "sha256.h"
#include "text.h"

static unsigned char page[4096];

int main(void)
{
    struct sha256 hash;
    long count;
    sha256_start(&hash);
    while ((count = read_input((char *)page, sizeof page)) > 0)
        sha256_add(&hash, page, (unsigned long)count);
    sha256_end(&hash);
    for (int k = 0; k < 8; k++)
        put_hex(hash.state[k]);
    put_text("\n");
    return 0;
}

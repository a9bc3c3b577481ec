/* Prints the SHA-256 hash of the input. */
#include "sha256.h"
#include "text.h"

int main(void)
{
    struct sha256 hash;
    unsigned char piece[48];
    long count;
    sha256_start(&hash);
    while ((count = read_input((char *)piece, sizeof piece)) > 0)
        sha256_add(&hash, piece, (unsigned long)count);
    sha256_end(&hash);
    for (int k = 0; k < 8; k++)
        put_hex(hash.state[k]);
    put_text("\n");
    return 0;
}

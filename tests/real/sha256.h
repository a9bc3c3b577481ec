/* The hash of a message that comes in pieces (FIPS 180-4, SHA-256). */
struct sha256 {
    unsigned state[8];
    unsigned char block[64];
    unsigned long length;
};

void sha256_start(struct sha256 *hash);
void sha256_add(struct sha256 *hash, const unsigned char *bytes, unsigned long count);
/* Ends the message; the state is its hash. */
void sha256_end(struct sha256 *hash);

/* SHA-256 (FIPS 180-4, sections 4.1.2, 4.2.2, 5.1.1, 5.3.3 and 6.2). */
#include "sha256.h"

static const unsigned constants[64] = {
    0x428a2f98, 0x71374491, 0xb5c0fbcf, 0xe9b5dba5, 0x3956c25b, 0x59f111f1, 0x923f82a4, 0xab1c5ed5,
    0xd807aa98, 0x12835b01, 0x243185be, 0x550c7dc3, 0x72be5d74, 0x80deb1fe, 0x9bdc06a7, 0xc19bf174,
    0xe49b69c1, 0xefbe4786, 0x0fc19dc6, 0x240ca1cc, 0x2de92c6f, 0x4a7484aa, 0x5cb0a9dc, 0x76f988da,
    0x983e5152, 0xa831c66d, 0xb00327c8, 0xbf597fc7, 0xc6e00bf3, 0xd5a79147, 0x06ca6351, 0x14292967,
    0x27b70a85, 0x2e1b2138, 0x4d2c6dfc, 0x53380d13, 0x650a7354, 0x766a0abb, 0x81c2c92e, 0x92722c85,
    0xa2bfe8a1, 0xa81a664b, 0xc24b8b70, 0xc76c51a3, 0xd192e819, 0xd6990624, 0xf40e3585, 0x106aa070,
    0x19a4c116, 0x1e376c08, 0x2748774c, 0x34b0bcb5, 0x391c0cb3, 0x4ed8aa4a, 0x5b9cca4f, 0x682e6ff3,
    0x748f82ee, 0x78a5636f, 0x84c87814, 0x8cc70208, 0x90befffa, 0xa4506ceb, 0xbef9a3f7, 0xc67178f2,
};

static unsigned turned(unsigned x, int by) { return x >> by | x << (32 - by); }

static void extend(unsigned *w, const unsigned char *block)
{
    for (int t = 0; t < 16; t++, block += 4)
        w[t] = (unsigned)block[0] << 24 | (unsigned)block[1] << 16 | (unsigned)block[2] << 8 | block[3];
    for (int t = 16; t < 64; t++) {
        unsigned low = turned(w[t - 15], 7) ^ turned(w[t - 15], 18) ^ w[t - 15] >> 3;
        unsigned high = turned(w[t - 2], 17) ^ turned(w[t - 2], 19) ^ w[t - 2] >> 10;
        w[t] = w[t - 16] + low + w[t - 7] + high;
    }
}

static void take_block(struct sha256 *hash)
{
    unsigned w[64], s[8];
    extend(w, hash->block);
    for (int k = 0; k < 8; k++)
        s[k] = hash->state[k];
    for (int t = 0; t < 64; t++) {
        unsigned high = turned(s[4], 6) ^ turned(s[4], 11) ^ turned(s[4], 25);
        unsigned first = s[7] + high + ((s[4] & s[5]) ^ (~s[4] & s[6])) + constants[t] + w[t];
        unsigned low = turned(s[0], 2) ^ turned(s[0], 13) ^ turned(s[0], 22);
        unsigned second = low + ((s[0] & s[1]) ^ (s[0] & s[2]) ^ (s[1] & s[2]));
        for (int k = 7; k; k--)
            s[k] = s[k - 1];
        s[4] += first;
        s[0] = first + second;
    }
    for (int k = 0; k < 8; k++)
        hash->state[k] += s[k];
}

void sha256_start(struct sha256 *hash)
{
    static const unsigned start[8] = {
        0x6a09e667, 0xbb67ae85, 0x3c6ef372, 0xa54ff53a, 0x510e527f, 0x9b05688c, 0x1f83d9ab, 0x5be0cd19,
    };
    for (int k = 0; k < 8; k++)
        hash->state[k] = start[k];
    hash->length = 0;
}

void sha256_add(struct sha256 *hash, const unsigned char *bytes, unsigned long count)
{
    for (; count; count--) {
        hash->block[hash->length++ & 63] = *bytes++;
        if ((hash->length & 63) == 0)
            take_block(hash);
    }
}

void sha256_end(struct sha256 *hash)
{
    unsigned char length[8];
    for (int k = 0; k < 8; k++)
        length[k] = (unsigned char)(hash->length * 8 >> (56 - 8 * k));
    sha256_add(hash, (const unsigned char *)"\200", 1);
    while ((hash->length & 63) != 56)
        sha256_add(hash, (const unsigned char *)"", 1);
    sha256_add(hash, length, sizeof length);
}

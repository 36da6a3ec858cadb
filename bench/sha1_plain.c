/* SHA-1 in portable C as it is usually written for speed: rounds written out, so that no working variable is moved, and a schedule of 16
 * words that is renewed on the way. */
#include "sha1_plain.h"

#include <string.h>

static uint32_t rotl(uint32_t x, int n)
{
    return x << n | x >> (32 - n);
}

static uint32_t load(const uint8_t *p)
{
    return (uint32_t)p[0] << 24 | (uint32_t)p[1] << 16 | (uint32_t)p[2] << 8 | p[3];
}

static void store(uint8_t *p, uint32_t x)
{
    p[0] = (uint8_t)(x >> 24);
    p[1] = (uint8_t)(x >> 16);
    p[2] = (uint8_t)(x >> 8);
    p[3] = (uint8_t)x;
}

#define CHOICE(x, y, z) ((z) ^ ((x) & ((y) ^ (z))))
#define PARITY(x, y, z) ((x) ^ (y) ^ (z))
#define MAJORITY(x, y, z) (((x) & (y)) | ((z) & ((x) | (y))))
#define FIRST(t) (w[t] = load(block + 4 * (t)))
#define NEXT(t) (w[(t) & 15] = rotl(w[((t) + 13) & 15] ^ w[((t) + 8) & 15] ^ w[((t) + 2) & 15] ^ w[(t) & 15], 1))
#define ROUND(f, k, a, b, c, d, e, word) (e += rotl(a, 5) + f(b, c, d) + k + (word), b = rotl(b, 30))
#define FIVE(f, k, word, t)                                                                                                            \
    (ROUND(f, k, a, b, c, d, e, word(t)), ROUND(f, k, e, a, b, c, d, word((t) + 1)), ROUND(f, k, d, e, a, b, c, word((t) + 2)),         \
     ROUND(f, k, c, d, e, a, b, word((t) + 3)), ROUND(f, k, b, c, d, e, a, word((t) + 4)))

static void compress(uint32_t h[5], const uint8_t *block)
{
    uint32_t w[16];
    uint32_t a = h[0], b = h[1], c = h[2], d = h[3], e = h[4];

    FIVE(CHOICE, 0x5a827999u, FIRST, 0);
    FIVE(CHOICE, 0x5a827999u, FIRST, 5);
    FIVE(CHOICE, 0x5a827999u, FIRST, 10);
    ROUND(CHOICE, 0x5a827999u, a, b, c, d, e, FIRST(15));
    ROUND(CHOICE, 0x5a827999u, e, a, b, c, d, NEXT(16));
    ROUND(CHOICE, 0x5a827999u, d, e, a, b, c, NEXT(17));
    ROUND(CHOICE, 0x5a827999u, c, d, e, a, b, NEXT(18));
    ROUND(CHOICE, 0x5a827999u, b, c, d, e, a, NEXT(19));
    FIVE(PARITY, 0x6ed9eba1u, NEXT, 20);
    FIVE(PARITY, 0x6ed9eba1u, NEXT, 25);
    FIVE(PARITY, 0x6ed9eba1u, NEXT, 30);
    FIVE(PARITY, 0x6ed9eba1u, NEXT, 35);
    FIVE(MAJORITY, 0x8f1bbcdcu, NEXT, 40);
    FIVE(MAJORITY, 0x8f1bbcdcu, NEXT, 45);
    FIVE(MAJORITY, 0x8f1bbcdcu, NEXT, 50);
    FIVE(MAJORITY, 0x8f1bbcdcu, NEXT, 55);
    FIVE(PARITY, 0xca62c1d6u, NEXT, 60);
    FIVE(PARITY, 0xca62c1d6u, NEXT, 65);
    FIVE(PARITY, 0xca62c1d6u, NEXT, 70);
    FIVE(PARITY, 0xca62c1d6u, NEXT, 75);
    h[0] += a;
    h[1] += b;
    h[2] += c;
    h[3] += d;
    h[4] += e;
}

vmc_digest plain_sha1(const uint8_t *message, size_t message_len)
{
    uint32_t h[5] = {0x67452301u, 0xefcdab89u, 0x98badcfeu, 0x10325476u, 0xc3d2e1f0u};
    uint64_t bits = (uint64_t)message_len * 8;
    size_t rest = message_len % 64;
    uint8_t block[64] = {0};
    vmc_digest digest;

    for (size_t at = 0; at + 64 <= message_len; at += 64)
        compress(h, message + at);
    memcpy(block, message + message_len - rest, rest);
    block[rest] = 0x80;
    if (rest >= 56) {
        compress(h, block);
        memset(block, 0, sizeof block);
    }
    store(block + 56, (uint32_t)(bits >> 32));
    store(block + 60, (uint32_t)bits);
    compress(h, block);
    for (int i = 0; i < 5; i++)
        store(digest.bytes + 4 * i, h[i]);
    return digest;
}

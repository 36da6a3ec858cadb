/*
 * The proved SHA-1 beside a plain one: first that both give the same digests, then how long each takes.
 *
 * Exits with 1 where a digest differs, or where the digest of `abc` is not the one that FIPS 180-4's examples have.
 */
#define _POSIX_C_SOURCE 200809L
#include "common.h"
#include "sha1_plain.h"

#include <stdbool.h>
#include <stdio.h>
#include <stdlib.h>
#include <string.h>

enum { SHORT = 300, LONG = 65536, LONG_CASES = 2000, ROUNDS = 300, BYTES_A_ROUND = 65536, IMPLEMENTATIONS = 2 };

typedef vmc_digest digest_function(const uint8_t *, size_t);

static digest_function *const implementations[IMPLEMENTATIONS] = {vmc_sha1, plain_sha1};
static const char *const names[IMPLEMENTATIONS] = {"vmc_sha1", "C"};

static bool same(vmc_digest a, vmc_digest b)
{
    return memcmp(a.bytes, b.bytes, sizeof a.bytes) == 0;
}

static bool agree(const uint8_t *message, size_t len)
{
    if (same(vmc_sha1(message, len), plain_sha1(message, len)))
        return true;
    printf("a message of %zu bytes differs\n", len);
    return false;
}

/* Whether both give the same digests, wherever in memory a message begins. */
static bool compare(const uint8_t *message)
{
    static const vmc_digest abc = {{0xa9, 0x99, 0x3e, 0x36, 0x47, 0x06, 0x81, 0x6a, 0xba, 0x3e,
                                    0x25, 0x71, 0x78, 0x50, 0xc2, 0x6c, 0x9c, 0xd0, 0xd8, 0x9d}};
    bool agreed = true;

    for (size_t len = 0; len <= SHORT; len++)
        for (size_t from = 0; from < 8; from++)
            agreed = agree(message + from, len) && agreed;
    for (int i = 0; i < LONG_CASES; i++)
        agreed = agree(message + below(8), below(LONG - 8)) && agreed;
    if (!same(vmc_sha1((const uint8_t *)"abc", 3), abc)) {
        printf("the digest of abc is another\n");
        agreed = false;
    }
    printf("messages of 0 to %d bytes, each at 8 places, and %d of up to %d compared: %s\n", SHORT, LONG_CASES, LONG,
           agreed ? "no difference" : "DIFFERENT");
    return agreed;
}

/* Times both on one message, in turn, round by round, so that a slow spell of the machine falls on both alike. */
static void measure(const uint8_t *message, size_t len)
{
    static double times[IMPLEMENTATIONS][ROUNDS];
    size_t calls = BYTES_A_ROUND / len;
    double median[IMPLEMENTATIONS];
    volatile uint8_t sink = 0;

    for (int round = 0; round < ROUNDS; round++) {
        for (int turn = 0; turn < IMPLEMENTATIONS; turn++) {
            int k = (round + turn) % IMPLEMENTATIONS;
            double start = now_ns();
            for (size_t call = 0; call < calls; call++)
                sink ^= implementations[k](message, len).bytes[0];
            times[k][round] = (now_ns() - start) / (double)calls;
        }
    }

    (void)sink;
    printf("%zu bytes\n", len);
    for (int k = 0; k < IMPLEMENTATIONS; k++) {
        qsort(times[k], ROUNDS, sizeof times[k][0], by_size);
        median[k] = times[k][ROUNDS / 2];
        printf("  %-10s %10.1f ns a message (median of %d rounds; best %.1f)\n", names[k], median[k], ROUNDS, times[k][0]);
    }
    printf("  ratio: %.2f of C\n", median[0] / median[1]);
}

int main(void)
{
    static uint8_t message[LONG + 8];
    static const size_t lengths[] = {28, 56, 224, LONG};

    for (size_t i = 0; i < sizeof message; i++)
        message[i] = (uint8_t)below(256);
    if (!compare(message))
        return 1;
    printf("Times with warm buffers: the same message is digested again and again.\n");
    for (size_t i = 0; i < sizeof lengths / sizeof lengths[0]; i++)
        measure(message, lengths[i]);
    return 0;
}

/*
 * A handover check at a depot: box 7 is handed over, and the sheet shows its counter's value, and how often the box was opened since the
 * confirmation, only where the desk accepts the proof. The proof is document 01's case A, each entry with one request and the digest of it, as
 * Note 7 of document 02 asks. With the owner's no at entry 3 that entry is passed over, by Note 5, and value and openings stay as entry 1 left
 * them; with the no at entry 1 it is case G. A request that was altered behind the module's back is told by its digest. Which signatures hold
 * is the station's library's to say: its yes and no are the verdict bytes, which are written out here.
 */
#include "vmc.h"
#include "vmc_text.h"

#include <stdio.h>
#include <string.h>

/* Document 01, "Proof form": a header of 24 bytes, the confirmation, the clock certificate and the entries. Note 7: an entry is a reading, the
 * count of its requests, a nonce, and the requests. */
enum { CONFIRMATION = 24, CERTIFICATE = 36, LOG = 60, HEAD_LEN = 28, ENTRY_LEN = HEAD_LEN + VMC_REQUEST_LEN, ENTRIES = 3 };
enum { PROOF_LEN = LOG + ENTRY_LEN * ENTRIES };

/* One for the confirmation, one for the clock certificate, two for each entry of one request. */
enum { VERDICTS_LEN = 2 + 2 * ENTRIES };

static uint8_t *put_u16(uint8_t *at, uint16_t x)
{
    *at++ = (uint8_t)(x >> 8);
    *at++ = (uint8_t)x;
    return at;
}

static uint8_t *put_u32(uint8_t *at, uint32_t x)
{
    at = put_u16(at, (uint16_t)(x >> 16));
    return put_u16(at, (uint16_t)x);
}

/* A nonce of 20 bytes b. */
static uint8_t *put_nonce(uint8_t *at, uint8_t b)
{
    memset(at, b, VMC_NONCE_LEN);
    return at + VMC_NONCE_LEN;
}

/* An entry of one request: what the module was given is the digest of it. */
static uint8_t *put_entry(uint8_t *at, uint32_t reading, uint8_t nonce, uint32_t id, uint32_t before)
{
    uint8_t *request = at + HEAD_LEN;
    uint8_t *end = put_u32(put_u32(put_nonce(request, nonce), id), before);
    vmc_digest digest = vmc_sha1(request, VMC_REQUEST_LEN);

    at = put_u32(at, reading);
    at = put_u32(at, 1);
    memcpy(at, digest.bytes, sizeof digest.bytes);
    return end;
}

/* The proof that document 01 calls P, closed by a clock read with the nonce given. */
static void write_proof(uint8_t proof[PROOF_LEN], uint8_t nonce)
{
    uint8_t *at = proof;

    at = put_u16(at, 2); /* form */
    at = put_u16(at, 1); /* kind: closes on a clock read */
    at = put_u32(at, PROOF_LEN);
    at = put_u32(at, CONFIRMATION);
    at = put_u32(at, CERTIFICATE);
    at = put_u32(at, LOG);
    at = put_u32(at, ENTRIES);

    /* confirmation: counter, value, reading */
    at = put_u32(at, 7);
    at = put_u32(at, 100);
    at = put_u32(at, 100);

    /* clock certificate: reading, nonce */
    at = put_u32(at, 103);
    at = put_nonce(at, nonce);

    at = put_entry(at, 101, 1, 7, 100);
    at = put_entry(at, 102, 2, 9, 100);
    put_entry(at, 103, 3, 7, 101);
}

static void hand_over(const char *title, const uint8_t *proof, size_t proof_len, const uint8_t *verdicts, size_t verdicts_len,
                      uint32_t id, const uint8_t nonce[VMC_NONCE_LEN])
{
    vmc_desk_figures answer = vmc_desk_verify(proof, proof_len, verdicts, verdicts_len, id, nonce, VMC_NONCE_LEN);

    printf("%s\n", title);
    printf("  number %u, value %u, closing %u, place %u, openings %u\n", (unsigned)answer.number, (unsigned)answer.value,
           (unsigned)answer.closing, (unsigned)answer.place, (unsigned)answer.openings);
    if (answer.number == VMC_REFUSAL_NONE) {
        printf("  Accepted: box %u is handed over at value %u, as of clock reading %u.\n", (unsigned)id, (unsigned)answer.value,
               (unsigned)answer.closing);
        printf("  Openings since the confirmation: %u.\n", (unsigned)answer.openings);
        return;
    }
    printf("  Refused: %s", vmc_refusal_text(answer.number));
    if (answer.place != 0)
        printf(" (place %u)", (unsigned)answer.place);
    printf(".\n");
}

int main(void)
{
    uint8_t proof[PROOF_LEN];
    uint8_t verdicts[VERDICTS_LEN];
    uint8_t nonce[VMC_NONCE_LEN];

    put_nonce(nonce, 5);
    write_proof(proof, 5);
    memset(verdicts, 1, sizeof verdicts);
    hand_over("Every signature holds", proof, sizeof proof, verdicts, sizeof verdicts, 7, nonce);

    /* After the confirmation's and the clock certificate's, each entry has the module's verdict and then the owner's. */
    verdicts[2 + 2 * 2 + 1] = 0;
    hand_over("The owner did not sign entry 3", proof, sizeof proof, verdicts, sizeof verdicts, 7, nonce);
    verdicts[2 + 2 * 2 + 1] = 1;

    /* Now entry 1 is passed over, and entry 3 states the value that it would have made. */
    verdicts[2 + 1] = 0;
    hand_over("The owner did not sign entry 1", proof, sizeof proof, verdicts, sizeof verdicts, 7, nonce);
    verdicts[2 + 1] = 1;

    /* Entry 2 is made another box's: its nonce is the digest of what the module was given, and no longer of this. */
    put_u32(proof + LOG + ENTRY_LEN + HEAD_LEN + VMC_NONCE_LEN, 8);
    hand_over("Entry 2 names another box than the module was given", proof, sizeof proof, verdicts, sizeof verdicts, 7, nonce);
    put_u32(proof + LOG + ENTRY_LEN + HEAD_LEN + VMC_NONCE_LEN, 9);

    hand_over("The last entry is cut off", proof, sizeof proof - ENTRY_LEN, verdicts, sizeof verdicts, 7, nonce);

    return fflush(stdout) == 0 ? 0 : 1;
}

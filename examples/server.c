/*
 * A server's day: the host keeps an image and sets out proofs, the desk judges them. The first twelve calls are document 01's example of the
 * program, and each prints a line as it does there: number and value, of the desk where a proof was written. Behind read's stand its
 * openings. Then boxes 7 and 9 are opened in the same moment, with a third request that is refused: the two that pass share one increment, and
 * the module is given the digest of them. Each is shown by a proof that closes on it. What the dock's display shows is every counter with its
 * current value and the proofs written for it so far, found in the image without a call. At the end box 7 is retired: its counter is closed, its
 * carrier gets an invoice for the proofs, and what stays is counter 9, with a log that still names counter 7.
 */
#include "vmc.h"

#include <stdio.h>
#include <string.h>

static uint8_t image[VMC_IMAGE_LEN];
static uint8_t proof[VMC_PROOF_MAX_LEN];
static uint8_t verdicts[2 + 2 * VMC_MAX_UNITS];

/* Document 01, "Proof form": the lower byte of the kind at byte 3; the log stands at byte 60 in kind 1 and at byte 36 in kind 2. */
enum { KIND = 3, LOG_READ = 60, LOG_INCREMENT = 36 };

static void print(uint32_t number, uint32_t value)
{
    printf("%u %u\n", (unsigned)number, (unsigned)value);
}

static void print_three(uint32_t first, uint32_t second, uint32_t third)
{
    printf("%u %u %u\n", (unsigned)first, (unsigned)second, (unsigned)third);
}

static void answer(vmc_host_figures figures)
{
    print(figures.number, figures.value);
}

static void answer_read(vmc_host_read_figures figures)
{
    print_three(figures.number, figures.value, figures.openings);
}

/* Hands the proof that a call wrote to the desk, every signature holding: a verdict for every 28 bytes of the log. */
static void show(vmc_host_figures written, uint32_t id, const uint8_t nonce[VMC_NONCE_LEN])
{
    vmc_desk_figures figures;
    size_t before = proof[KIND] == 1 ? 2 : 1;
    size_t log = proof[KIND] == 1 ? LOG_READ : LOG_INCREMENT;

    if (written.number != VMC_REFUSAL_NONE) {
        answer(written);
        return;
    }
    figures = vmc_desk_verify(proof, written.value, verdicts, before + (written.value - log) / VMC_REQUEST_LEN, id, nonce, VMC_NONCE_LEN);
    print(figures.number, figures.value);
}

/* A nonce of 20 bytes b. */
static const uint8_t *nonce(uint8_t b)
{
    static uint8_t bytes[VMC_NONCE_LEN];

    memset(bytes, b, sizeof bytes);
    return bytes;
}

static void put_number(uint8_t *at, uint32_t x)
{
    at[0] = (uint8_t)(x >> 24);
    at[1] = (uint8_t)(x >> 16);
    at[2] = (uint8_t)(x >> 8);
    at[3] = (uint8_t)x;
}

/* A request of a counter by someone who holds a value of it. */
static void put_request(uint8_t request[VMC_REQUEST_LEN], uint8_t b, uint32_t id, uint32_t before)
{
    memcpy(request, nonce(b), VMC_NONCE_LEN);
    put_number(request + VMC_NONCE_LEN, id);
    put_number(request + VMC_NONCE_LEN + 4, before);
}

/* A batch of one. */
static void increment(uint8_t b, uint32_t id, uint32_t before)
{
    uint8_t request[VMC_REQUEST_LEN];
    vmc_host_batch_figures figures;

    put_request(request, b, id, before);
    figures = vmc_host_increment(image, sizeof image, request, sizeof request, verdicts, 1);
    print(figures.number != VMC_REFUSAL_NONE ? figures.number : figures.numbers[0], figures.value);
}

/* Three requests in one batch: each gets its number, and those that pass share an increment. The driver hands the module their digest. */
static void share(void)
{
    uint8_t requests[3 * VMC_REQUEST_LEN];
    uint8_t passed[3 * VMC_REQUEST_LEN];
    size_t len = 0;
    vmc_host_batch_figures figures;
    vmc_digest digest;

    put_request(requests, 8, 7, 103);
    put_request(requests + VMC_REQUEST_LEN, 10, 7, 103); /* counter 7 is raised by this batch already */
    put_request(requests + 2 * VMC_REQUEST_LEN, 11, 9, 102);
    figures = vmc_host_increment(image, sizeof image, requests, sizeof requests, verdicts, 3);
    print(figures.number, figures.value);
    print_three(figures.numbers[0], figures.numbers[1], figures.numbers[2]);
    for (size_t i = 0; i < 3; i++) {
        if (figures.numbers[i] == VMC_REFUSAL_NONE) {
            memcpy(passed + len, requests + i * VMC_REQUEST_LEN, VMC_REQUEST_LEN);
            len += VMC_REQUEST_LEN;
        }
    }
    digest = vmc_sha1(passed, len);
    printf("module: increment with ");
    for (size_t i = 0; i < sizeof digest.bytes; i++)
        printf("%02x", digest.bytes[i]);
    printf("\n");
}

static vmc_host_figures prove(uint8_t b, uint32_t id)
{
    return vmc_host_prove(image, sizeof image, nonce(b), VMC_NONCE_LEN, id, proof, sizeof proof);
}

/* Carriers pay per proof, and a close gives how many were written for its counter. */
static void invoice(vmc_host_figures closed, uint32_t id)
{
    answer(closed);
    if (closed.number == VMC_REFUSAL_NONE)
        printf("invoice: box %u, %u proofs\n", (unsigned)id, (unsigned)closed.value);
}

static uint32_t number_at(size_t at)
{
    return (uint32_t)image[at] << 24 | (uint32_t)image[at + 1] << 16 | (uint32_t)image[at + 2] << 8 | image[at + 3];
}

static void display(void)
{
    for (uint32_t i = 0; i < number_at(VMC_IMAGE_COUNTERS); i++) {
        size_t record = VMC_IMAGE_RECORDS + (size_t)VMC_RECORD_LEN * i;
        print_three(number_at(record), number_at(record + VMC_RECORD_CURRENT), number_at(record + VMC_RECORD_PROOFS));
    }
}

int main(void)
{
    memset(verdicts, 1, sizeof verdicts);

    answer(vmc_host_start(image, sizeof image, 100));
    answer(vmc_host_open(image, sizeof image, 7, 100, 100, 1));
    answer(vmc_host_open(image, sizeof image, 9, 100, 100, 1));
    increment(1, 7, 100);
    increment(2, 9, 100);
    increment(3, 7, 100); /* not the value that it holds by now */
    increment(4, 7, 101);
    answer_read(vmc_host_read(image, sizeof image, 7));
    show(prove(5, 9), 9, nonce(5));
    answer(vmc_host_confirm(image, sizeof image, 7, 103, 103, 1));
    answer(vmc_host_confirm(image, sizeof image, 9, 102, 103, 1));
    show(prove(6, 7), 7, nonce(6));

    share();
    show(vmc_host_last(image, sizeof image, 7, 104, proof, sizeof proof), 7, nonce(8));
    show(vmc_host_last(image, sizeof image, 9, 104, proof, sizeof proof), 9, nonce(11));
    display();

    answer_read(vmc_host_read(image, sizeof image, 7));
    invoice(vmc_host_close(image, sizeof image, 7, 104, 104, 1), 7); /* its current value, at the clock */
    answer_read(vmc_host_read(image, sizeof image, 7));              /* not held any more */
    answer(vmc_host_open(image, sizeof image, 7, 103, 103, 1));      /* the log still has its entry at 104, which counter 9 needs */
    show(prove(9, 9), 9, nonce(9));
    display();

    return fflush(stdout) == 0 ? 0 : 1;
}

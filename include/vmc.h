/*
 * The desk and the host for C and C++: document 01's "The desk", which verifies a validity proof of a counter, and "The host", which keeps
 * the server's log image and sets such proofs out; the openings are those of Note 1 of document 02, the current value in a record is that of
 * Note 2, close that of Note 4, a request that its owner did not sign is passed over by Note 5, the count of proofs is that of Note 6, and several
 * requests under one increment, with the forms of proof and image, are those of Note 7. (The documents call a counter a box.)
 *
 * To link, on x86-64 Linux, from the top of the repository:
 *
 *     tools/archive
 *     cc -Iinclude prog.c target/staticlib/libvmc.a
 *
 * The archive needs no library but that of C.
 */
#ifndef VMC_H
#define VMC_H

#include <stddef.h>
#include <stdint.h>

#ifdef __cplusplus
extern "C" {
#endif

/* A nonce has exactly this many bytes. */
#define VMC_NONCE_LEN 20u
/* A request has exactly this many bytes: its nonce, the counter's number and the value that the requester held before, each number of four bytes with
 * the highest first. */
#define VMC_REQUEST_LEN 28u
/* One increment of the module's clock carries at most this many requests; one without any is a tick. */
#define VMC_MAX_REQUESTS 8u
/* A proof has at most this many requests and ticks, and so at most this many entries and this many bytes. An image's log has no more either. */
#define VMC_MAX_UNITS 1024u
#define VMC_PROOF_MAX_LEN 57404u

/* ---- numbers */

/*
 * The numbers that the calls answer. Which call gives which, when and in which order stands at the answers of desk and host below; vmc_text.h has a
 * sentence for each. No call gives 12.
 */
enum vmc_refusal {
    VMC_REFUSAL_NONE = 0, /* done, or accepted */

    /* the desk */
    VMC_REFUSAL_BAD_WANTED = 1,
    VMC_REFUSAL_TOO_SHORT = 2,
    VMC_REFUSAL_UNKNOWN_FORM = 3,
    VMC_REFUSAL_BAD_COUNT = 4,
    VMC_REFUSAL_BAD_LAYOUT = 5,
    VMC_REFUSAL_BAD_VERDICTS = 6,
    VMC_REFUSAL_BAD_CONFIRMATION = 7,
    VMC_REFUSAL_UNCONFIRMED = 8,
    VMC_REFUSAL_DENIED = 9,
    VMC_REFUSAL_CLOSES_ELSEWHERE = 10,
    VMC_REFUSAL_WRONG_READING = 11,
    VMC_REFUSAL_BROKEN_CHAIN = 13,
    VMC_REFUSAL_FORGED = 30,
    VMC_REFUSAL_REPEATED = 31,

    /* the host */
    VMC_REFUSAL_UNSOUND = 14,
    VMC_REFUSAL_UNSIGNED = 15,
    VMC_REFUSAL_MALFORMED = 16,
    VMC_REFUSAL_NOT_HELD = 17,
    VMC_REFUSAL_ALREADY_HELD = 18,
    VMC_REFUSAL_TABLE_FULL = 19,
    VMC_REFUSAL_TOO_EARLY = 20,
    VMC_REFUSAL_MISSTATED = 21,
    VMC_REFUSAL_STALE = 22,
    VMC_REFUSAL_NO_ENTRY = 23,
    VMC_REFUSAL_LOG_FULL = 24,
    VMC_REFUSAL_CLOCK_ENDED = 25,
    VMC_REFUSAL_NO_ROOM = 26,
    VMC_REFUSAL_NAMED_LATER = 28,
    VMC_REFUSAL_RAISED_ALREADY = 29,

    /* the program over lines alone */
    VMC_REFUSAL_UNKNOWN_LINE = 27
};

/* ---- what the module is given */

typedef struct vmc_digest {
    uint8_t bytes[VMC_NONCE_LEN];
} vmc_digest;

/*
 * The SHA-1 digest of some bytes, by FIPS 180-4. The nonce that the module is given with an increment is the digest of the increment's
 * requests, joined in their order; with a tick that of no bytes. The pointer must not be null even where the length is 0.
 */
vmc_digest vmc_sha1(const uint8_t *message, size_t message_len);

/* ---- the desk */

/*
 * The desk's answer.
 *
 * number: 0 where the proof is accepted, else the first of these checks, in this order, that refuses it. Each check goes over the
 * whole proof before the next begins.
 *
 *      1  what is wanted can't be: the counter is 0, or the nonce is not 20 bytes long
 *      2  the proof has under 24 bytes, so its header is not whole
 *      3  the form is not 2, or the kind neither 1 (closes on a clock read) nor 2 (closes on an increment)
 *      4  over 1,024 entries, or none in kind 2; over 8 requests in an entry, or over 1,024 requests and ticks, as far as the entries' counts lie in
 *         the bytes lent
 *      5  the bytes lent, the whole length or an offset is not that of the kind and the entries
 *      6  the verdict list has another length than the proof asks for, or a byte over 1
 *      7  the confirmation is another counter's, or its value is above its reading
 *      8  the confirmation's verdict is no
 *      9  the module's verdict is no: at the clock certificate (place 0) or at an entry
 *     30  an entry's nonce is not the digest of its requests
 *     31  an entry names a counter twice (0 too)
 *     10  kind 1: the clock certificate has another nonce than the wanted one; kind 2: the last entry has no request of the wanted counter with the
 *         wanted nonce and the owner's yes
 *     11  an entry's reading is not one more than the one before it, which for entry 1 is the confirmation's; or the clock
 *         certificate's is not that of the last entry, or without entries the confirmation's (place: number of entries + 1)
 *     13  a request of the wanted counter with the owner's yes does not state the running value as its value before
 *
 * No check has the number 12.
 *
 * value: the counter's value at the closing reading where accepted, else 0.
 * closing: the clock reading that the proof closes on where accepted, else 0.
 * place: the entry that is refused, counted from 1, by 9, 30, 31, 11 and 13, with the two exceptions above; else 0.
 * openings: how often the counter was raised, by requests that its owner signed, after the proof's own confirmation, up to the closing
 *     reading; 0 where the proof is refused.
 */
typedef struct vmc_desk_figures {
    uint32_t number;
    uint32_t value;
    uint32_t closing;
    uint32_t place;
    uint32_t openings;
} vmc_desk_figures;

/*
 * Verifies a proof.
 *
 * proof: the bytes of the proof, exactly as many as it has. Bytes of any content and any length are judged; there is nothing to test
 *     before the call.
 * verdicts: what the check of each signature said, one byte each, 0 no and 1 yes, in this order: the confirmation's; in kind 1 the
 *     clock certificate's; then for each entry the module's and after it the owner's on each of its requests. That is 2 bytes in kind 1 and 1 in
 *     kind 2, and 1 for every 28 bytes of the log, since an entry has 28 bytes before its requests. The module's yes says that it did that increment
 *     with that reading and that nonce; which requests the nonce is the digest of the desk sees to itself. The owner's counts only on requests of the
 *     wanted counter, but is 0 or 1 everywhere. A request of the wanted counter with the owner's no is judged as another counter's: it does not raise
 *     the value, and its value before is free. So the no must be as true as the yes, 1 where the owner signed the request and 0 where not: a false no
 *     hides a raise.
 * id: the number of the wanted counter, not 0.
 * nonce: the wanted nonce. Kind 1: the one that the clock was asked with; kind 2: that of the counter's request in the last entry.
 *
 * Each pointer must be to as many readable bytes as its length says, which nobody writes during the call, and must not be null even
 * where the length is 0. The buffers may overlap. No byte of them is written, and no pointer to them is kept.
 *
 * The desk keeps no state and allocates nothing: any number of threads may call it at once. Every call returns.
 */
vmc_desk_figures vmc_desk_verify(const uint8_t *proof, size_t proof_len,
                                 const uint8_t *verdicts, size_t verdicts_len,
                                 uint32_t id,
                                 const uint8_t *nonce, size_t nonce_len);

/* ---- the host */

/* An image has exactly this many bytes. Its form is 5; an image of another form is not sound. */
#define VMC_IMAGE_LEN 58652u

/*
 * Where a display that can't walk the log finds the counters' current values, and an account the proofs written for each. All numbers have four
 * bytes, the highest first.
 *
 * At VMC_IMAGE_COUNTERS stands how many counters are held. Each has a record, in order of opening, the first at VMC_IMAGE_RECORDS and the next
 * one VMC_RECORD_LEN behind it. A record begins with the counter's number. At VMC_RECORD_CURRENT in it stands the counter's current value: in a
 * sound image what vmc_host_read gives for that number. At VMC_RECORD_PROOFS, its last four bytes, stands how many proofs prove and last wrote
 * for the counter since it was opened; that figure stops at 4,294,967,295. A record is known by its number and not by its place: where a counter
 * is closed, the records behind it move up.
 *
 * Every image that the calls below leave is sound; whether another one is, read itself says: it answers 14 where it is not. But nothing in an
 * image speaks for or against the count of proofs, so that any is sound: it is right as long as these calls alone write the image.
 */
#define VMC_IMAGE_COUNTERS 8u
#define VMC_IMAGE_RECORDS 28u
#define VMC_RECORD_LEN 20u
#define VMC_RECORD_CURRENT 12u
#define VMC_RECORD_PROOFS 16u

/*
 * A host call's answer; read and increment have answers of their own, with more figures.
 *
 * number: 0 where the call is done, else the first of these, in this order, that refuses it.
 *
 *     14  the image is not sound; start: it has another length than VMC_IMAGE_LEN
 *     15  open, increment, confirm, close: the owner's verdict is not 1
 *     16  the counter is 0, the nonce is not 20 bytes long, or a confirmation's value is above its reading; increment: the batch as a whole is none
 *     17  the counter is not held (all calls but open that name one)
 *     18  open: the counter is held already
 *     19  open: there are 64 counters already
 *     20  open: the reading is before the log; confirm: it is before the held one
 *     21  open: the reading is past the clock, or the value is another than the reading; confirm: the reading is past the clock, or the
 *         value is not the counter's at that reading; close: the reading is not the clock's
 *     29  increment: a request of this batch before it for the same counter passed (comes before 22)
 *     22  increment: the value before is not the counter's current one; close: the value is not
 *     23  last: no entry with reading t behind the counter's held one has a request of it
 *     24  tick, increment: there are 1,024 requests and ticks already, those of the batch that passed before it included
 *     25  tick, increment: the clock is at its end, 4,294,967,295
 *     26  prove, last: the output is too short for the proof; VMC_PROOF_MAX_LEN bytes are always enough
 *     28  open: the log has an entry with a later reading that names the counter, as it may have of one that was closed
 *
 * 27 is the program's, for a line that it does not know, and no call's.
 *
 * value: what the call gives where it is done, else 0. On a refusal image and output are as they were.
 */
typedef struct vmc_host_figures {
    uint32_t number;
    uint32_t value;
} vmc_host_figures;

/*
 * read's answer.
 *
 * number, value: as above.
 * openings: how often the counter was raised after its held confirmation, up to the clock; 0 where the call is refused.
 */
typedef struct vmc_host_read_figures {
    uint32_t number;
    uint32_t value;
    uint32_t openings;
} vmc_host_read_figures;

/*
 * increment's answer.
 *
 * number: 14 or 16 where the batch is refused as a whole, else 0.
 * value: the clock's new reading where some request of the batch passed, else 0.
 * numbers: of each request of the batch, in their order, 0 where it passed or else the first of 15, 16, 17, 29, 22, 24 and 25 that refuses it; 0
 *     behind the last, and everywhere where the batch is refused as a whole.
 */
typedef struct vmc_host_batch_figures {
    uint32_t number;
    uint32_t value;
    uint32_t numbers[VMC_MAX_REQUESTS];
} vmc_host_batch_figures;

/*
 * The calls. The image is the caller's to keep: each call gets it as the last one left it, and nobody else writes it. Every call but start
 * looks first whether it is sound, whatever it holds.
 *
 * A driver that keeps to four sentences writes no proof that a desk turns away, as long as the station says no only where no is true:
 *
 *     1  start is called with the reading that the module's clock has then.
 *     2  For each tick and each increment that answers with a new reading the module increments once, in the order of the calls, given the digest
 *        of the requests that passed, for a tick that of no bytes; for nothing else does it increment. A start gives up what is not done yet.
 *     3  A verdict is 1 only where the signature holds: for open and confirm the owner's on the confirmation, for increment on each request.
 *     4  The module goes first: before prove its clock was read with that nonce, at the reading that the image has; before last of t it has
 *        incremented to t.
 *
 * Nothing is asked of the verdict that close gets, nor of calls that are refused. docs/ASSURANCE.md says what is proved of such a server.
 *
 * Each pointer must be to as many bytes as its length says and must not be null even where the length is 0. Image and output are written, so
 * that no other buffer of the call may overlap them. No pointer is kept, nothing is allocated, and every call returns. verdict is 1 where
 * the owner's signature holds.
 */

/* Writes an image with a clock and no counters over whatever the buffer held. Gives the clock. */
vmc_host_figures vmc_host_start(uint8_t *image, size_t image_len, uint32_t clock);

/* Takes up a counter by its owner's confirmation, whose value is its current one. Its proofs are counted from 0 on, also where it was held and
 * closed before. Gives how many counters are held.
 *
 * A counter that was closed may be taken up again, but by 28 not at a reading before an entry that the log still has of it. What the desk shows
 * of a counter is known to be right only where its number is opened once: the host does not see to that, so a new box gets a new number. */
vmc_host_figures vmc_host_open(uint8_t *image, size_t image_len, uint32_t id, uint32_t value, uint32_t reading, uint32_t verdict);

/* The clock's next reading, without a request. The nonce is only tested for its length: the module is given the digest of no bytes. Gives the
 * reading. */
vmc_host_figures vmc_host_tick(uint8_t *image, size_t image_len, const uint8_t *nonce, size_t nonce_len);

/* The clock's next reading, for a batch of 1 to 8 requests: requests are VMC_REQUEST_LEN bytes each, joined, and verdicts a byte each, 1 where
 * the owner signed that request. Each request is refused by its own number or passes. If none passes nothing is written, and the module is not
 * to increment. Else the entry carries those that passed, in their order, the reading is the current value of their counters from then on, and
 * the driver has the module increment with the digest of them, joined. A batch of no requests or of over 8, bytes that are no requests, and
 * another number of verdicts get 16 as a whole. */
vmc_host_batch_figures vmc_host_increment(uint8_t *image, size_t image_len, const uint8_t *requests, size_t requests_len,
                                          const uint8_t *verdicts, size_t verdicts_len);

/* Gives a counter's current value, and its openings. Nothing is written. */
vmc_host_read_figures vmc_host_read(const uint8_t *image, size_t image_len, uint32_t id);

/* Writes a proof of kind 1 up to the clock, which was read with the nonce, to the front of the output, and counts it: one proof more in the
 * counter's own record, unless the figure there is 4,294,967,295 already, which stays. Gives the proof's length. */
vmc_host_figures vmc_host_prove(uint8_t *image, size_t image_len, const uint8_t *nonce, size_t nonce_len, uint32_t id, uint8_t *out,
                                size_t out_len);

/* Writes a proof of kind 2 up to the entry with reading t, which has a request of the counter, to the front of the output, and counts it as
 * prove does. Gives the proof's length. */
vmc_host_figures vmc_host_last(uint8_t *image, size_t image_len, uint32_t id, uint32_t t, uint8_t *out, size_t out_len);

/* Replaces a counter's confirmation by a later one and drops the entries that no counter needs. The current value stays, and so does the count
 * of proofs. Gives how many entries are left. */
vmc_host_figures vmc_host_confirm(uint8_t *image, size_t image_len, uint32_t id, uint32_t value, uint32_t reading, uint32_t verdict);

/* Gives a counter up by its owner's confirmation of its current value at the clock: its record goes, the later ones move up, and the entries
 * that no counter left needs are dropped. Its own entries stay where another counter needs them. Gives how many proofs were written for it since
 * it was opened, as its record had it: the figure goes with the record, so whoever charges for proofs takes it from here. It may be 0.
 *
 * Refuses by 14 to 17, 21 and 22, and then leaves the image as it was. */
vmc_host_figures vmc_host_close(uint8_t *image, size_t image_len, uint32_t id, uint32_t value, uint32_t reading, uint32_t verdict);

#ifdef __cplusplus
}
#endif

#endif

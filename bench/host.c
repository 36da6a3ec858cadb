/*
 * The proved host beside two plain ones: first that all give the same figures and leave the same bytes in image and output, then how long
 * each takes.
 *
 * Exits with 1 where anything differs, or where a call or a number that the host has, a read with openings, a number of close, one of the
 * things that a close leads to, one of the cases of a count of proofs, or a number or a size of a batch was never met, so that the comparison
 * would be hollow.
 */
#define _POSIX_C_SOURCE 200809L
#include "common.h"
#include "host_plain.h"
#include "sha1_plain.h"

#include <stdbool.h>
#include <stdio.h>
#include <stdlib.h>
#include <string.h>

enum { LISTS = 1500, ROUNDS = 300, CALLS = 20, IMPLEMENTATIONS = 3 };
/* The host's numbers, but for one that only lines of text get. */
enum { FIRST_NUMBER = 14, LINE_NUMBER = 27, NUMBERS = 30 };
/* The most requests that a batch is handed here, one more than it may have. */
enum { MOST = VMC_MAX_REQUESTS + 1 };
/* Room to lend an image, an output or a nonce longer than it should be. */
enum { SLACK = 64 };
/* From how many counters on an image has many. */
enum { MANY = MAX_COUNTERS / 2 };

static const char *const names[IMPLEMENTATIONS] = {"vmc_host_*", "C, linear search", "C, table of hints"};

enum kind { START, OPEN, TICK, INCREMENT, READ, PROVE, LAST, CONFIRM, CLOSE, KINDS };

/* All that one call of the host is handed besides image and output. */
struct call {
    enum kind kind;
    size_t image_len;
    size_t out_len;
    size_t nonce_len;
    uint8_t nonce[VMC_NONCE_LEN + SLACK];
    uint32_t id;
    /* value and reading: the confirmation's; reading also start's clock and last's t. */
    uint32_t value;
    uint32_t reading;
    uint32_t verdict;
    /* A batch: requests joined, and a verdict for each. */
    size_t requests_len;
    size_t verdicts_len;
    uint8_t requests[REQUEST_LEN * MOST];
    uint8_t verdicts[MOST + 1];
};

/* What any call answers: figures that it has not are 0. */
struct figures {
    uint32_t number;
    uint32_t value;
    uint32_t openings;
    uint32_t numbers[VMC_MAX_REQUESTS];
};

struct buffers {
    uint8_t image[VMC_IMAGE_LEN + SLACK];
    uint8_t out[VMC_PROOF_MAX_LEN + SLACK];
};

static struct figures plain_figures(vmc_host_figures f)
{
    return (struct figures){.number = f.number, .value = f.value};
}

static struct figures read_figures(vmc_host_read_figures f)
{
    return (struct figures){.number = f.number, .value = f.value, .openings = f.openings};
}

static struct figures batch_figures(vmc_host_batch_figures f)
{
    struct figures figures = {.number = f.number, .value = f.value};
    memcpy(figures.numbers, f.numbers, sizeof figures.numbers);
    return figures;
}

static struct figures ask_proved(struct buffers *b, const struct call *c)
{
    switch (c->kind) {
    case START:
        return plain_figures(vmc_host_start(b->image, c->image_len, c->reading));
    case OPEN:
        return plain_figures(vmc_host_open(b->image, c->image_len, c->id, c->value, c->reading, c->verdict));
    case TICK:
        return plain_figures(vmc_host_tick(b->image, c->image_len, c->nonce, c->nonce_len));
    case INCREMENT:
        return batch_figures(vmc_host_increment(b->image, c->image_len, c->requests, c->requests_len, c->verdicts, c->verdicts_len));
    case READ:
        return read_figures(vmc_host_read(b->image, c->image_len, c->id));
    case PROVE:
        return plain_figures(vmc_host_prove(b->image, c->image_len, c->nonce, c->nonce_len, c->id, b->out, c->out_len));
    case LAST:
        return plain_figures(vmc_host_last(b->image, c->image_len, c->id, c->reading, b->out, c->out_len));
    case CONFIRM:
        return plain_figures(vmc_host_confirm(b->image, c->image_len, c->id, c->value, c->reading, c->verdict));
    default:
        return plain_figures(vmc_host_close(b->image, c->image_len, c->id, c->value, c->reading, c->verdict));
    }
}

static struct figures ask_plain(enum plain_lookup lookup, struct buffers *b, const struct call *c)
{
    switch (c->kind) {
    case START:
        return plain_figures(plain_host_start(b->image, c->image_len, c->reading));
    case OPEN:
        return plain_figures(plain_host_open(lookup, b->image, c->image_len, c->id, c->value, c->reading, c->verdict));
    case TICK:
        return plain_figures(plain_host_tick(lookup, b->image, c->image_len, c->nonce, c->nonce_len));
    case INCREMENT:
        return batch_figures(plain_host_increment(lookup, b->image, c->image_len, c->requests, c->requests_len, c->verdicts, c->verdicts_len));
    case READ:
        return read_figures(plain_host_read(lookup, b->image, c->image_len, c->id));
    case PROVE:
        return plain_figures(plain_host_prove(lookup, b->image, c->image_len, c->nonce, c->nonce_len, c->id, b->out, c->out_len));
    case LAST:
        return plain_figures(plain_host_last(lookup, b->image, c->image_len, c->id, c->reading, b->out, c->out_len));
    case CONFIRM:
        return plain_figures(plain_host_confirm(lookup, b->image, c->image_len, c->id, c->value, c->reading, c->verdict));
    default:
        return plain_figures(plain_host_close(lookup, b->image, c->image_len, c->id, c->value, c->reading, c->verdict));
    }
}

static struct figures ask(int implementation, struct buffers *b, const struct call *c)
{
    return implementation == 0 ? ask_proved(b, c) : ask_plain(implementation == 1 ? PLAIN_SEARCH : PLAIN_TABLE, b, c);
}

static uint32_t be32(const uint8_t *p)
{
    return (uint32_t)p[0] << 24 | (uint32_t)p[1] << 16 | (uint32_t)p[2] << 8 | p[3];
}

static void put32(uint8_t *p, uint32_t x)
{
    for (int i = 3; i >= 0; i--, x >>= 8)
        p[i] = (uint8_t)x;
}

/* ---- a random call that is often a valid one */

/* Any number, but often one that is near. */
static uint32_t near(uint32_t x)
{
    return below(8) != 0 ? x : below(2) == 0 ? x + below(5) - 2 : below(UINT32_MAX);
}

/* The next entry of an image's log behind a place, or NULL where the log, or a damaged image, has no further whole one. */
static const uint8_t *entry_from(const uint8_t *image, const uint8_t *at)
{
    if (at + HEAD_LEN > image + IMAGE_LEN)
        return NULL;
    uint32_t count = be32(at + ENTRY_COUNT);
    return count > VMC_MAX_REQUESTS || at + HEAD_LEN + REQUEST_LEN * count > image + IMAGE_LEN ? NULL : at;
}

static const uint8_t *behind(const uint8_t *entry)
{
    return entry + HEAD_LEN + REQUEST_LEN * be32(entry + ENTRY_COUNT);
}

static bool names_counter(const uint8_t *entry, uint32_t id)
{
    for (uint32_t j = 0; j < be32(entry + ENTRY_COUNT); j++)
        if (be32(entry + HEAD_LEN + REQUEST_LEN * j + REQUEST_ID) == id)
            return true;
    return false;
}

/* The entry at an index, or NULL. */
static const uint8_t *entry_at(const uint8_t *image, uint32_t index)
{
    const uint8_t *entry = entry_from(image, image + LOG);
    while (entry != NULL && index-- > 0)
        entry = entry_from(image, behind(entry));
    return entry;
}

/* The value of the record's counter at a reading, as an image that is sound has it. */
static uint32_t value_at(const uint8_t *image, const uint8_t *record, uint32_t reading)
{
    uint32_t value = be32(record + RECORD_VALUE), entries = be32(image + ENTRIES);
    const uint8_t *entry = entry_from(image, image + LOG);
    for (uint32_t k = 0; k < entries && entry != NULL; k++, entry = entry_from(image, behind(entry)))
        if (be32(entry) > be32(record + RECORD_READING) && be32(entry) <= reading && names_counter(entry, be32(record)))
            value = be32(entry);
    return value;
}

/* The reading of the last entry that names a counter, 0 where none does. */
static uint32_t last_named(const uint8_t *image, uint32_t id)
{
    uint32_t reading = 0, entries = be32(image + ENTRIES);
    const uint8_t *entry = entry_from(image, image + LOG);
    for (uint32_t k = 0; k < entries && entry != NULL; k++, entry = entry_from(image, behind(entry)))
        if (names_counter(entry, id))
            reading = be32(entry);
    return reading;
}

/* The record of a counter, or NULL where it is not held. */
static const uint8_t *record_of(const uint8_t *image, uint32_t id)
{
    uint32_t counters = be32(image + COUNTERS);
    for (uint32_t i = 0; i < counters && i < MAX_COUNTERS; i++)
        if (be32(image + RECORDS + RECORD_LEN * i) == id)
            return image + RECORDS + RECORD_LEN * i;
    return NULL;
}

/* A counter that was closed and that the log still names, or 0 where a few looks at the log find none. */
static uint32_t some_closed(const uint8_t *image)
{
    uint32_t entries = be32(image + ENTRIES);
    for (int look = 0; look < 8 && entries != 0; look++) {
        const uint8_t *entry = entry_at(image, below(entries));
        if (entry == NULL || be32(entry + ENTRY_COUNT) == 0)
            continue;
        uint32_t id = be32(entry + HEAD_LEN + REQUEST_LEN * below(be32(entry + ENTRY_COUNT)) + REQUEST_ID);
        if (record_of(image, id) == NULL)
            return id;
    }
    return 0;
}

/* A reading to open a closed counter at again. */
static uint32_t reopening(const uint8_t *image, uint32_t id)
{
    uint32_t clock = be32(image + CLOCK);
    switch (below(4)) {
    case 0:
        return clock;
    case 1: /* a little before the clock */
        return clock - 1 - below(3);
    case 2: /* that of its last entry, at which it may be opened, or the one before, at which it may not */
        return last_named(image, id) - below(2);
    default: /* any that the log goes back to */
        return clock - below(be32(image + ENTRIES) + 1);
    }
}

/* How a list's calls are chosen: out of how many counters, how often an opening, a confirmation, a close and, besides those that come anyway, a
 * proof are among the calls, and before how many of them a counter gets another count of proofs. All but the first are of a hundred calls. */
struct habit {
    uint32_t ids;
    uint32_t opens;
    uint32_t confirms;
    uint32_t closes;
    uint32_t proofs;
    uint32_t counts;
};

static struct habit some_habit(void)
{
    return (struct habit){.ids = 1 + below(100),
                          .opens = 1 + below(30),
                          .confirms = below(3) * below(3),
                          .closes = below(3) * below(4),
                          .proofs = 10 * below(4),
                          .counts = 4 * below(3)};
}

static enum kind any_kind(const struct habit *habit)
{
    if (below(100) < habit->opens)
        return OPEN;
    if (below(100) < habit->confirms)
        return CONFIRM;
    if (below(100) < habit->closes)
        return CLOSE;
    if (below(100) < habit->proofs)
        return below(2) == 0 ? PROVE : LAST;
    static const enum kind others[] = {INCREMENT, INCREMENT, INCREMENT, INCREMENT, INCREMENT, INCREMENT, TICK, TICK, READ, PROVE, LAST};
    return others[below(sizeof others / sizeof others[0])];
}

/* A request at a place of a batch. */
static void put_request(struct call *c, uint32_t i, uint32_t id, uint32_t before)
{
    uint8_t *request = c->requests + REQUEST_LEN * i;
    memset(request, (int)below(256), VMC_NONCE_LEN);
    put32(request + REQUEST_ID, id);
    put32(request + REQUEST_BEFORE, before);
}

/* A batch of mostly few requests, each of some counter that is held and its current value, or near; now and then of none or of too many, with bytes
 * that are no requests, or with another number of verdicts. */
static void choose_batch(struct call *c, const uint8_t *image, const struct habit *habit)
{
    uint32_t counters = be32(image + COUNTERS), count = below(4) != 0 ? 1 + below(3) : below(MOST + 1);

    for (uint32_t i = 0; i < count; i++) {
        uint32_t index = counters == 0 || counters > MAX_COUNTERS ? 0 : below(counters);
        const uint8_t *record = image + RECORDS + RECORD_LEN * index;
        uint32_t id = below(30) != 0 && counters != 0 ? be32(record) : below(habit->ids + 1);
        put_request(c, i, id, near(be32(record + RECORD_CURRENT)));
        c->verdicts[i] = below(30) != 0 ? 1 : (uint8_t)below(3);
    }
    c->requests_len = REQUEST_LEN * count - (count != 0 && below(100) == 0 ? 1 + below(REQUEST_LEN - 1) : 0);
    c->verdicts_len = below(100) != 0 ? count : below(MOST + 1);
}

static void choose(struct call *c, const uint8_t *image, const struct habit *habit)
{
    uint32_t clock = be32(image + CLOCK), entries = be32(image + ENTRIES), counters = be32(image + COUNTERS);
    uint32_t index = counters == 0 || counters > MAX_COUNTERS ? 0 : below(counters);
    const uint8_t *record = image + RECORDS + RECORD_LEN * index;
    uint32_t held = be32(record + RECORD_READING);

    /* Now and then a close is asked for once more as it was. */
    if (c->kind == CLOSE && below(4) == 0)
        return;
    c->kind = any_kind(habit);
    uint32_t closed = c->kind == OPEN ? some_closed(image) : 0;
    c->image_len = below(200) != 0 ? VMC_IMAGE_LEN : below(2) == 0 ? below(VMC_IMAGE_LEN) : VMC_IMAGE_LEN + below(SLACK);
    c->out_len = below(4) != 0 ? VMC_PROOF_MAX_LEN : below(VMC_PROOF_MAX_LEN + SLACK);
    c->nonce_len = below(50) != 0 ? VMC_NONCE_LEN : below(VMC_NONCE_LEN + SLACK);
    memset(c->nonce, (int)below(256), sizeof c->nonce);
    c->verdict = below(50) != 0 ? 1 : below(3);
    c->id = below(30) != 0 && counters != 0 ? be32(record) : below(habit->ids + 1);
    switch (c->kind) {
    case OPEN:
        c->id = below(50) != 0 ? 1 + below(habit->ids) : 0;
        c->reading = near(entries == 0 || entries > clock ? clock : clock - below(entries + 1));
        if (closed != 0 && below(2) == 0) {
            c->id = closed;
            c->reading = near(reopening(image, closed));
        }
        c->value = near(c->reading);
        break;
    case CONFIRM:
        c->reading = near(held >= clock ? clock : held + below(clock - held + 1));
        c->value = near(value_at(image, record, c->reading));
        break;
    case CLOSE: /* mostly at the clock with the current value, else by the held confirmation, whole or in part */
        c->reading = near(below(8) != 0 ? clock : held);
        c->value = near(value_at(image, record, below(8) != 0 ? clock : held));
        if (below(16) == 0) /* no list opens these */
            c->id = habit->ids + 1 + below(habit->ids);
        break;
    case LAST:
        c->reading = near(value_at(image, record, entries == 0 ? clock : clock - below(entries)));
        break;
    case INCREMENT:
        choose_batch(c, image, habit);
        break;
    default:
        break;
    }
}

/* ---- comparing */

struct tally {
    unsigned long calls, differing, with_openings;
    unsigned long met[NUMBERS];
    unsigned long done[KINDS];
    /* Of close by itself, since others give its numbers too. */
    unsigned long closes[NUMBERS];
    /* Closes that cut the log, that left entries of their counter in it, and that left no counter; counters opened that the log names. */
    unsigned long cutting, leaving_entries, leaving_none, reopened;
    /* Proofs written for a counter whose count stood at the ceiling, for one whose count came up to it, and where many counters were held. */
    unsigned long at_ceiling, to_ceiling, among_many;
    /* Closes that gave a count over 0, the ceiling, and a count over 0 where many counters were held; confirmations that kept a count over 0. */
    unsigned long charged, charged_ceiling, charged_among_many, kept;
    /* Refusals of an image that but for the header's last figure is sound. */
    unsigned long by_header_figure;
    /* Of increment: the numbers of single requests, batches by how many passed, and those refused as a whole by 16. */
    unsigned long requests[NUMBERS], passed[VMC_MAX_REQUESTS + 1], whole;
};

static const int request_numbers[] = {0, 15, 16, 17, 22, 24, 25, 29};

static const int close_numbers[] = {0, 14, 15, 16, 17, 21, 22};

/* What is counted by the image as it was before a call: how many entries and counters it had, and the count of proofs of the call's counter, 0
 * where that one was not held. */
struct before {
    uint32_t entries;
    uint32_t counters;
    uint32_t proofs;
};

static struct before before_call(const uint8_t *image, const struct call *c)
{
    const uint8_t *record = record_of(image, c->id);
    return (struct before){.entries = be32(image + ENTRIES),
                           .counters = be32(image + COUNTERS),
                           .proofs = record == NULL ? 0 : be32(record + RECORD_PROOFS)};
}

/* Counts what became of the count of proofs in a call that was done, by its answer. */
static void count_proofs(struct tally *tally, const struct call *c, uint32_t value, const struct before *before)
{
    bool many = before->counters >= MANY;
    if (c->kind == PROVE || c->kind == LAST) {
        tally->at_ceiling += before->proofs == UINT32_MAX;
        tally->to_ceiling += before->proofs == UINT32_MAX - 1;
        tally->among_many += many;
    }
    if (c->kind == CLOSE) {
        tally->charged += value > 0;
        tally->charged_ceiling += value == UINT32_MAX;
        tally->charged_among_many += value > 0 && many;
    }
    if (c->kind == CONFIRM)
        tally->kept += before->proofs > 0;
}

/* Counts a call that was done, by its answer and the images after and before it. */
static void count_done(struct tally *tally, const uint8_t *image, const struct call *c, uint32_t value, const struct before *before)
{
    tally->done[c->kind]++;
    if (c->kind == CLOSE) {
        tally->cutting += be32(image + ENTRIES) < before->entries;
        tally->leaving_entries += last_named(image, c->id) != 0;
        tally->leaving_none += be32(image + COUNTERS) == 0;
    }
    if (c->kind == OPEN)
        tally->reopened += last_named(image, c->id) != 0;
    count_proofs(tally, c, value, before);
}

/* Whether a call was refused by 14 for the header's last figure alone: with zero there the image is sound. */
static bool by_header_figure(const uint8_t *image, const struct call *c, uint32_t number)
{
    static uint8_t mended[VMC_IMAGE_LEN];
    if (number != 14 || c->image_len != VMC_IMAGE_LEN || be32(image + ZERO_FIGURE) == 0)
        return false;
    memcpy(mended, image, sizeof mended);
    put32(mended + ZERO_FIGURE, 0);
    return vmc_host_read(mended, sizeof mended, 1).number != 14;
}

static bool same(const struct figures *a, const struct figures *b)
{
    return a->number == b->number && a->value == b->value && a->openings == b->openings &&
           memcmp(a->numbers, b->numbers, sizeof a->numbers) == 0;
}

/* Counts a batch by its answer. */
static void count_batch(struct tally *tally, const struct call *c, const struct figures *figures)
{
    uint32_t passed = 0;

    tally->whole += figures->number == 16;
    if (figures->number != 0)
        return;
    for (size_t i = 0; i < c->verdicts_len; i++) {
        uint32_t number = figures->numbers[i];
        passed += number == 0;
        if (number < NUMBERS) {
            tally->requests[number]++;
            tally->met[number] += number != 0;
        }
    }
    tally->passed[passed]++;
}

/* Makes one call by all implementations, each on its own buffers, which are the same before. */
static void compare_call(struct tally *tally, struct buffers *buffers, const struct call *c)
{
    struct figures figures[IMPLEMENTATIONS];
    struct before before = before_call(buffers[0].image, c);
    for (int k = 0; k < IMPLEMENTATIONS; k++)
        figures[k] = ask(k, &buffers[k], c);
    uint32_t number = figures[0].number < NUMBERS ? figures[0].number : 0;
    tally->calls++;
    tally->met[number]++;
    tally->closes[number] += c->kind == CLOSE;
    tally->with_openings += figures[0].openings > 0;
    tally->by_header_figure += by_header_figure(buffers[0].image, c, number);
    if (c->kind == INCREMENT)
        count_batch(tally, c, &figures[0]);
    if (figures[0].number == 0)
        count_done(tally, buffers[0].image, c, figures[0].value, &before);
    for (int k = 1; k < IMPLEMENTATIONS; k++) {
        bool same_image = memcmp(buffers[0].image, buffers[k].image, sizeof buffers[0].image) == 0;
        bool same_out = memcmp(buffers[0].out, buffers[k].out, sizeof buffers[0].out) == 0;
        if (same(&figures[0], &figures[k]) && same_image && same_out)
            continue;
        if (++tally->differing <= 10)
            printf("call %lu (kind %d) differs: %s %u %u %u, %s %u %u %u%s%s\n", tally->calls, (int)c->kind, names[0],
                   (unsigned)figures[0].number, (unsigned)figures[0].value, (unsigned)figures[0].openings, names[k],
                   (unsigned)figures[k].number, (unsigned)figures[k].value, (unsigned)figures[k].openings,
                   same_image ? "" : ", image", same_out ? "" : ", output");
        buffers[k] = buffers[0];
    }
}

/* The record of some counter of a sound image, or its first record where there is none. */
static uint8_t *some_record(uint8_t *image)
{
    uint32_t counters = be32(image + COUNTERS);
    return image + RECORDS + RECORD_LEN * (counters == 0 ? 0 : below(counters));
}

/* A count of proofs: small, any, one behind which more than its last byte changes, or at its ceiling or a little below. */
static uint32_t some_count(void)
{
    switch (below(6)) {
    case 0:
        return 1 + below(3);
    case 1:
        return below(UINT32_MAX);
    case 2:
        return ((1 + below(255)) << 8 * (1 + below(3))) - 1;
    default:
        return UINT32_MAX - below(3);
    }
}

/* Gives some counter that is held another count of proofs, as calls alone would take long to reach. A sound image stays sound. */
static void set_count(uint8_t *image)
{
    if (be32(image + COUNTERS) != 0)
        put32(some_record(image) + RECORD_PROOFS, some_count());
}

/* Gives an entry the digest of its requests as its nonce, where its count is one that an entry may have. */
static void seal(uint8_t *entry)
{
    uint32_t count = be32(entry + ENTRY_COUNT);
    if (count > VMC_MAX_REQUESTS)
        return;
    vmc_digest digest = plain_sha1(entry + HEAD_LEN, REQUEST_LEN * count);
    memcpy(entry + ENTRY_NONCE, digest.bytes, VMC_NONCE_LEN);
}

/* One random change of a sound image; any may leave it sound. */
static void damage(uint8_t *image)
{
    uint32_t entries = be32(image + ENTRIES);
    const uint8_t *found = entry_at(image, entries == 0 ? 0 : below(entries));
    uint8_t *entry = image + (found == NULL ? LOG : found - image);
    uint32_t count = be32(entry + ENTRY_COUNT);
    uint8_t *request = entry + HEAD_LEN + REQUEST_LEN * (count == 0 || count > VMC_MAX_REQUESTS ? 0 : below(count));
    const uint8_t *from;

    switch (below(13)) {
    case 0:
        image[below(HEADER_LEN)] = (uint8_t)below(256);
        break;
    case 1: /* records, used and unused */
        image[RECORDS + below(LOG - RECORDS)] ^= (uint8_t)(1 + below(255));
        break;
    case 2: /* the last byte of a field, so that the number is near the right one */
        image[4 * below((LOG + HEAD_LEN * (entries < 1024 ? entries : 1024)) / 4) + 3] ^= (uint8_t)(1 + below(3));
        break;
    case 3: /* one counter's id becomes another's */
        memmove(image + RECORDS + RECORD_LEN * below(MAX_COUNTERS), image + RECORDS + RECORD_LEN * below(MAX_COUNTERS), 4);
        break;
    case 4: /* the last byte of a current value */
        some_record(image)[RECORD_CURRENT + 3] ^= (uint8_t)(1 + below(3));
        break;
    case 5: /* a current value becomes another one, or a confirmed one */
        from = some_record(image) + (below(2) == 0 ? RECORD_CURRENT : RECORD_VALUE);
        memmove(some_record(image) + RECORD_CURRENT, from, 4);
        break;
    case 6: /* a request names another counter, which may be held or not, or none */
        request[REQUEST_ID + 3] = (uint8_t)below(128);
        seal(entry);
        break;
    case 7: /* a request has another counter's number, or value before */
        memmove(request + REQUEST_ID, entry + HEAD_LEN + REQUEST_ID, 4 + 4 * below(2));
        seal(entry);
        break;
    case 11: /* another count, or another reading, sealed where that can be */
        entry[below(2) == 0 ? ENTRY_COUNT + 3 : 3] ^= (uint8_t)(1 + below(15));
        seal(entry);
        break;
    case 12: /* a nonce */
        entry[ENTRY_NONCE + below(VMC_NONCE_LEN)] ^= (uint8_t)(1 + below(255));
        break;
    case 8: /* the header has a count of proofs */
        put32(image + ZERO_FIGURE, some_count());
        break;
    case 9: /* the form or the log's offset is that of images with records of another length */
        image[below(2) == 0 ? 1 : LOG_OFFSET + 2] = (uint8_t)below(8);
        break;
    default:
        image[below(VMC_IMAGE_LEN)] ^= (uint8_t)(1 + below(255));
    }
}

/* Gives the first image to the other implementations too. */
static void hand_on(struct buffers *buffers)
{
    for (int k = 1; k < IMPLEMENTATIONS; k++)
        memcpy(buffers[k].image, buffers[0].image, sizeof buffers[0].image);
}

/* Makes one call on a damaged image, and puts the image back as it was. */
static void compare_damaged(struct tally *tally, struct buffers *buffers, const struct call *c)
{
    static uint8_t kept[sizeof buffers[0].image];
    memcpy(kept, buffers[0].image, sizeof kept);
    damage(buffers[0].image);
    hand_on(buffers);
    compare_call(tally, buffers, c);
    memcpy(buffers[0].image, kept, sizeof kept);
    hand_on(buffers);
}

/* A list of calls from a start on. Now and then a counter gets another count of proofs, and goes on with it; now and then the image is damaged
 * for one call. */
static void compare_list(struct tally *tally, struct buffers *buffers)
{
    static const uint32_t lengths[] = {20, 60, 200, 200, 3000};
    uint32_t length = lengths[below(32) == 0 ? 4 : below(4)];
    struct habit habit = some_habit();
    struct call c = {.kind = START, .image_len = VMC_IMAGE_LEN};

    damage(buffers[0].image); /* start writes over whatever there was */
    hand_on(buffers);
    c.reading = below(8) == 0 ? UINT32_MAX - below(length) : below(UINT32_MAX);
    compare_call(tally, buffers, &c);
    for (uint32_t i = 0; i < length; i++) {
        if (below(100) < habit.counts) {
            set_count(buffers[0].image);
            hand_on(buffers);
        }
        choose(&c, buffers[0].image, &habit);
        if (below(16) == 0)
            compare_damaged(tally, buffers, &c);
        else
            compare_call(tally, buffers, &c);
    }
}

/* The reports below print what was met, and say whether nothing was left out that has to be. */

static bool report_calls(const struct tally *tally)
{
    bool all_met = tally->with_openings > 0;
    printf("%lu calls in %d lists compared, %lu differences. Calls by number: 0:%lu", tally->calls, LISTS, tally->differing, tally->met[0]);
    for (int number = FIRST_NUMBER; number < NUMBERS; number++) {
        if (number == LINE_NUMBER)
            continue;
        printf(" %d:%lu", number, tally->met[number]);
        all_met = all_met && tally->met[number] > 0;
    }
    for (int kind = 0; kind < KINDS; kind++)
        all_met = all_met && tally->done[kind] > 0;
    printf("; with openings: %lu\n", tally->with_openings);
    return all_met;
}

static bool report_closes(const struct tally *tally)
{
    bool all_met = tally->cutting > 0 && tally->leaving_entries > 0 && tally->leaving_none > 0 && tally->reopened > 0;
    printf("Closes by number:");
    for (size_t i = 0; i < sizeof close_numbers / sizeof close_numbers[0]; i++) {
        printf(" %d:%lu", close_numbers[i], tally->closes[close_numbers[i]]);
        all_met = all_met && tally->closes[close_numbers[i]] > 0;
    }
    printf("; %lu cut the log, %lu left entries of their counter, %lu left no counter. Opened though the log names it: %lu\n",
           tally->cutting, tally->leaving_entries, tally->leaving_none, tally->reopened);
    return all_met;
}

static bool report_proofs(const struct tally *tally)
{
    printf("Proofs written: %lu, with the count at the ceiling %lu, up to it %lu, with %d counters or more %lu. Closes that gave a count over 0: "
           "%lu, the ceiling %lu, with %d counters or more %lu. Confirmations that kept a count over 0: %lu. Refused by the header's figure alone: "
           "%lu\n",
           tally->done[PROVE] + tally->done[LAST], tally->at_ceiling, tally->to_ceiling, MANY, tally->among_many, tally->charged,
           tally->charged_ceiling, MANY, tally->charged_among_many, tally->kept, tally->by_header_figure);
    return tally->at_ceiling > 0 && tally->to_ceiling > 0 && tally->among_many > 0 && tally->charged > 0 && tally->charged_ceiling > 0 &&
           tally->charged_among_many > 0 && tally->kept > 0 && tally->by_header_figure > 0;
}

static bool report_batches(const struct tally *tally)
{
    bool all_met = tally->whole > 0;
    printf("Requests by number:");
    for (size_t i = 0; i < sizeof request_numbers / sizeof request_numbers[0]; i++) {
        printf(" %d:%lu", request_numbers[i], tally->requests[request_numbers[i]]);
        all_met = all_met && tally->requests[request_numbers[i]] > 0;
    }
    printf("; batches refused as a whole by 16: %lu, by requests passed:", tally->whole);
    for (size_t passed = 0; passed <= VMC_MAX_REQUESTS; passed++) {
        printf(" %zu:%lu", passed, tally->passed[passed]);
        all_met = all_met && tally->passed[passed] > 0;
    }
    printf("\n");
    return all_met;
}

/* Whether all implementations agree on all calls, every number was met, so were openings, every call was done at least once, and all that
 * is counted of closes, of counts of proofs and of batches was met. */
static bool compare(struct buffers *buffers)
{
    struct tally tally = {0};

    memset(buffers, 0, IMPLEMENTATIONS * sizeof *buffers);
    for (int i = 0; i < LISTS; i++)
        compare_list(&tally, buffers);

    bool calls_met = report_calls(&tally), closes_met = report_closes(&tally), proofs_met = report_proofs(&tally);
    bool batches_met = report_batches(&tally), all_met = calls_met && closes_met && proofs_met && batches_met;
    if (!all_met)
        printf("error: a number, openings or something of a close, of a count of proofs or of a batch was never met, or a call was never done\n");
    return tally.differing == 0 && all_met;
}

/* ---- timing */

/* A batch of so many counters, from the record at an index on, each with its current value. */
static void share(struct call *c, const uint8_t *image, uint32_t index, uint32_t requests)
{
    c->kind = INCREMENT;
    for (uint32_t j = 0; j < requests; j++) {
        const uint8_t *record = image + RECORDS + RECORD_LEN * ((index + j) % MAX_COUNTERS);
        put_request(c, j, be32(record), be32(record + RECORD_CURRENT));
        c->verdicts[j] = 1;
    }
    c->requests_len = REQUEST_LEN * requests;
    c->verdicts_len = requests;
}

/* A full table of counters and a log of some entries of so many requests each, the counters' in turn; none is a tick. */
static void fill(struct buffers *b, uint32_t entries, uint32_t requests)
{
    struct call c = {.kind = START, .image_len = VMC_IMAGE_LEN, .reading = 1000000, .nonce_len = VMC_NONCE_LEN, .verdict = 1};

    /* The same counters in every image that is timed, whatever was drawn before: how many of them share a hint decides much. */
    seed = SEED;
    ask(0, b, &c);
    c.kind = OPEN;
    for (uint32_t i = 0; i < MAX_COUNTERS; i++) {
        c.id = 1 + below(UINT32_MAX - 1);
        c.value = c.reading;
        ask(0, b, &c);
    }
    c.kind = TICK;
    for (uint32_t i = 0; i < entries; i++) {
        if (requests != 0)
            share(&c, b->image, requests * i, requests);
        ask(0, b, &c);
    }
}

/* A confirmation of the record's counter at a reading, for confirm or close. */
static void confirm_at(struct call *c, enum kind kind, const uint8_t *image, const uint8_t *record, uint32_t reading)
{
    c->kind = kind;
    c->id = be32(record);
    c->reading = reading;
    c->value = value_at(image, record, reading);
}

/* Has all counters but that of one record confirmed at a reading, so that this one alone holds the entries up to there back. */
static void confirm_others(struct buffers *b, const uint8_t *record, uint32_t reading)
{
    struct call c = {.image_len = VMC_IMAGE_LEN, .verdict = 1};

    for (uint32_t i = 0; i < MAX_COUNTERS; i++) {
        const uint8_t *other = b->image + RECORDS + RECORD_LEN * i;
        confirm_at(&c, CONFIRM, b->image, other, reading);
        if (other != record)
            ask(0, b, &c);
    }
}

/* Closes every second counter. The others still need all entries, half of which are now of no counter that is held. */
static void close_half(struct buffers *b)
{
    struct call c = {.image_len = VMC_IMAGE_LEN, .verdict = 1};

    for (uint32_t i = 0; i < MAX_COUNTERS / 2; i++) {
        confirm_at(&c, CLOSE, b->image, b->image + RECORDS + RECORD_LEN * i, be32(b->image + CLOCK));
        ask(0, b, &c);
    }
}

/* Times all implementations on one call, in turn, round by round, so that a slow spell of the machine falls on all alike. The image is
 * put back before each call, outside the time that is taken. */
static void measure(const char *title, struct buffers *b, const struct call *c)
{
    static double times[IMPLEMENTATIONS][ROUNDS];
    static uint8_t kept[sizeof b->image];
    double median[IMPLEMENTATIONS];
    volatile uint32_t sink = 0;

    memcpy(kept, b->image, sizeof kept);
    for (int round = 0; round < ROUNDS; round++) {
        for (int turn = 0; turn < IMPLEMENTATIONS; turn++) {
            int k = (round + turn) % IMPLEMENTATIONS;
            double spent = 0;
            for (int call = 0; call < CALLS; call++) {
                memcpy(b->image, kept, sizeof kept);
                double start = now_ns();
                sink += ask(k, b, c).value;
                spent += now_ns() - start;
            }
            times[k][round] = spent / CALLS;
        }
    }

    (void)sink;
    memcpy(b->image, kept, sizeof kept);
    struct figures figures = ask(0, b, c);
    memcpy(b->image, kept, sizeof kept);
    printf("%s: answer %u, value %u\n", title, (unsigned)figures.number, (unsigned)figures.value);
    for (int k = 0; k < IMPLEMENTATIONS; k++) {
        qsort(times[k], ROUNDS, sizeof times[k][0], by_size);
        median[k] = times[k][ROUNDS / 2];
        printf("  %-20s %7.0f ns a call (median of %d rounds; best %.0f)\n", names[k], median[k], ROUNDS, times[k][0]);
    }
    printf("  ratio: %.2f of C with a linear search, %.2f of C with a table of hints\n", median[0] / median[1], median[0] / median[2]);
}

int main(void)
{
    static struct buffers buffers[IMPLEMENTATIONS];

    if (!compare(buffers))
        return 1;
    printf("Times with warm buffers: the same call is made again and again, on an image for which 64 counters were opened. Entries that "
           "are no ticks are the counters' in turn.\n");
    struct call c = {.image_len = VMC_IMAGE_LEN, .out_len = VMC_PROOF_MAX_LEN, .nonce_len = VMC_NONCE_LEN, .verdict = 1};
    const uint8_t *record = buffers[0].image + RECORDS + RECORD_LEN * (MAX_COUNTERS / 2);

    fill(&buffers[0], VMC_MAX_UNITS - 1, 1);
    share(&c, buffers[0].image, MAX_COUNTERS / 2, 1);
    measure("increment by one request, behind 1,023 entries of one", &buffers[0], &c);
    fill(&buffers[0], VMC_MAX_UNITS / VMC_MAX_REQUESTS - 1, VMC_MAX_REQUESTS);
    share(&c, buffers[0].image, MAX_COUNTERS / 2, VMC_MAX_REQUESTS);
    measure("increment by eight requests, behind 127 entries of eight", &buffers[0], &c);
    fill(&buffers[0], VMC_MAX_UNITS / VMC_MAX_REQUESTS, VMC_MAX_REQUESTS);
    c.kind = PROVE;
    c.id = be32(record);
    measure("prove of 128 entries of eight", &buffers[0], &c);
    fill(&buffers[0], VMC_MAX_UNITS, 1);
    c.id = be32(record);
    measure("prove of 1,024 entries of one", &buffers[0], &c);
    c.kind = READ;
    measure("read at 1,024 entries", &buffers[0], &c);
    uint32_t clock = be32(buffers[0].image + CLOCK);
    confirm_at(&c, CLOSE, buffers[0].image, record, clock);
    measure("close at 1,024 entries, all needed by others", &buffers[0], &c);
    confirm_others(&buffers[0], record, clock - VMC_MAX_UNITS / 2);
    measure("close at 1,024 entries, half of them needed by others", &buffers[0], &c);
    fill(&buffers[0], VMC_MAX_UNITS, 1);
    close_half(&buffers[0]);
    c.kind = READ;
    c.id = be32(buffers[0].image + RECORDS);
    measure("read at 1,024 entries, half of them of closed counters", &buffers[0], &c);
    fill(&buffers[0], VMC_MAX_UNITS - 2, 0);
    clock = be32(buffers[0].image + CLOCK);
    confirm_at(&c, CONFIRM, buffers[0].image, record, clock);
    measure("confirm at 1,022 ticks", &buffers[0], &c);
    return 0;
}

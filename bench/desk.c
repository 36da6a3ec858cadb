/*
 * The proved desk beside two plain ones: first that all give the same five figures, then how long each takes.
 *
 * Exits with 1 where any figure differs, or where a check that the desk has, an accepted proof with openings, with a shared entry or with a tick,
 * or one of the answers that turn on a request that its owner did not sign was never met, so that the comparison would be hollow.
 */
#define _POSIX_C_SOURCE 200809L
#include "common.h"
#include "desk_plain.h"
#include "sha1_plain.h"

#include <stdbool.h>
#include <stdio.h>
#include <stdlib.h>
#include <string.h>

enum { CASES = 200000, ROUNDS = 300, CALLS = 40, IMPLEMENTATIONS = 3 };
/* The numbers of the desk's answers. */
static const uint32_t numbers[] = {0, 1, 2, 3, 4, 5, 6, 7, 8, 9, 10, 11, 13, 30, 31};
enum { NUMBERS = sizeof numbers / sizeof numbers[0], ABOVE_NUMBERS = 32 };
/* Where things stand in a proof. */
enum { LOG_READ = 60, LOG_INCREMENT = 36, COUNT = 4, NONCE = 8, HEAD_LEN = 28, ID = 20, BEFORE = 24 };
/* Room to lend a proof or a verdict list longer than it should be. */
enum { SLACK = 64 };

typedef vmc_desk_figures verify_function(const uint8_t *, size_t, const uint8_t *, size_t, uint32_t, const uint8_t *, size_t);

static verify_function *const implementations[IMPLEMENTATIONS] = {vmc_desk_verify, plain_desk_verify, plain_desk_verify_once};
static const char *const names[IMPLEMENTATIONS] = {"vmc_desk_verify", "C, loop after loop", "C, one loop"};

/* All that one call of the desk is handed. */
struct question {
    uint8_t proof[VMC_PROOF_MAX_LEN + SLACK];
    size_t proof_len;
    uint8_t verdicts[2 + 2 * VMC_MAX_UNITS + SLACK];
    size_t verdicts_len;
    uint32_t id;
    uint8_t nonce[VMC_NONCE_LEN + SLACK];
    size_t nonce_len;
};

static vmc_desk_figures ask(verify_function *verify, const struct question *q)
{
    return verify(q->proof, q->proof_len, q->verdicts, q->verdicts_len, q->id, q->nonce, q->nonce_len);
}

static uint8_t *put(uint8_t *at, uint32_t x, int bytes)
{
    for (int shift = 8 * (bytes - 1); shift >= 0; shift -= 8)
        *at++ = (uint8_t)(x >> shift);
    return at;
}

static uint8_t *put_nonce(uint8_t *at, uint8_t b)
{
    memset(at, b, VMC_NONCE_LEN);
    return at + VMC_NONCE_LEN;
}

static uint32_t get(const uint8_t *at)
{
    return (uint32_t)at[0] << 24 | (uint32_t)at[1] << 16 | (uint32_t)at[2] << 8 | at[3];
}

/* Where the log begins in a proof of a kind, and how many verdicts stand before those of its entries. */
static size_t log_at(uint32_t kind)
{
    return kind == 1 ? LOG_READ : LOG_INCREMENT;
}

static size_t verdicts_before(uint32_t kind)
{
    return kind == 1 ? 2 : 1;
}

/* Gives an entry the digest of its requests as its nonce. */
static void seal(uint8_t *entry)
{
    vmc_digest digest = plain_sha1(entry + HEAD_LEN, VMC_REQUEST_LEN * get(entry + COUNT));
    memcpy(entry + NONCE, digest.bytes, VMC_NONCE_LEN);
}

/* The entry at a place of a proof, with the verdicts on it: both begin at the log's first. */
struct place {
    size_t at;
    size_t verdict;
    uint32_t count;
};

/* Whether an entry lies whole at a place, and if so its count. */
static bool look(const struct question *q, struct place *p)
{
    if (p->at + HEAD_LEN > q->proof_len)
        return false;
    p->count = get(q->proof + p->at + COUNT);
    return p->count <= VMC_MAX_REQUESTS && p->at + HEAD_LEN + VMC_REQUEST_LEN * p->count <= q->proof_len;
}

static void move_on(struct place *p)
{
    p->at += HEAD_LEN + VMC_REQUEST_LEN * p->count;
    p->verdict += 1 + p->count;
}

static struct place first_place(const struct question *q)
{
    uint32_t kind = q->proof[3];
    return (struct place){.at = log_at(kind), .verdict = verdicts_before(kind)};
}

/* Whether entry i is picked where one in `every` is, in turn or at random; with 0 none is. */
static bool picked(uint32_t i, uint32_t every, bool in_turn)
{
    return every > 0 && (in_turn ? i % every : below(every)) == 0;
}

/* How the entries of a proof are made: one in `every` has a request of the wanted counter, one in `unsigned_every` has that request unsigned; each
 * has so many requests, or any number where that is 0. In turn, or at random. */
struct manner {
    uint32_t every;
    uint32_t unsigned_every;
    uint32_t requests;
    bool in_turn;
};

/* How many requests an entry gets, with room for so many units, one of which it needs if it has the wanted counter. */
static uint32_t some_count(const struct manner *m, bool wanted, uint32_t room)
{
    uint32_t count = m->requests != 0 ? m->requests : below(3) == 0 ? below(VMC_MAX_REQUESTS + 1) : below(3);
    if (wanted && count == 0)
        count = 1;
    return count < room ? count : room;
}

/* Writes an entry's requests: the wanted counter's among them at a random place, if it is wanted; the others of other counters, each once, or one of
 * none. Gives the place of the wanted one. */
static uint32_t put_requests(uint8_t *at, uint32_t count, bool wanted, uint32_t id, uint32_t before, uint8_t nonce)
{
    uint32_t own = wanted ? below(count) : count;
    uint32_t none = below(8) == 0 ? below(VMC_MAX_REQUESTS) : count;

    for (uint32_t j = 0; j < count; j++) {
        at = put_nonce(at, j == own ? nonce : (uint8_t)below(200));
        at = put(at, j == own ? id : j == none ? 0 : id + 1 + j, 4);
        at = put(at, j == own ? before : below(UINT32_MAX), 4);
    }
    return own;
}

/* A question that the desk accepts, unless g + n is too large for a reading: a proof of at most n entries after reading g. In kind 2 the last one
 * always has the counter's request, signed. */
static void build(struct question *q, uint32_t kind, uint32_t id, uint32_t value, uint32_t g, uint32_t n, struct manner m)
{
    uint8_t *at = q->proof + log_at(kind);
    uint32_t running = value, units = 0, i = 0;
    uint8_t *verdict = q->verdicts + verdicts_before(kind);

    memset(q->verdicts, 1, sizeof q->verdicts);
    while (i < n) {
        i++;
        /* Every entry behind this one needs a unit. */
        uint32_t room = VMC_MAX_UNITS - units - (n - i);
        bool last = kind == 2 && i == n;
        bool wanted = picked(i, m.every, m.in_turn) || last;
        bool by_owner = !picked(i, m.unsigned_every, m.in_turn) || last;
        uint32_t count = some_count(&m, wanted, room);
        /* The value before where it is not judged: any, or at random the one that would be right. */
        uint32_t before = wanted && by_owner ? running : m.in_turn || below(2) == 0 ? below(UINT32_MAX) : running;
        put(at, g + i, 4);
        put(at + COUNT, count, 4);
        uint32_t own = put_requests(at + HEAD_LEN, count, wanted, id, before, last ? 200 : (uint8_t)below(200));
        if (wanted)
            verdict[1 + own] = by_owner;
        for (uint32_t j = 0; j < count && !m.in_turn; j++)
            if (j != own)
                verdict[1 + j] = (uint8_t)below(2);
        seal(at);
        at += HEAD_LEN + VMC_REQUEST_LEN * count;
        verdict += 1 + count;
        units += count == 0 ? 1 : count;
        if (wanted && by_owner)
            running = g + i;
    }
    q->proof_len = (size_t)(at - q->proof);
    q->verdicts_len = (size_t)(verdict - q->verdicts);
    at = put(q->proof, 2, 2);
    at = put(at, kind, 2);
    at = put(at, (uint32_t)q->proof_len, 4);
    at = put(at, 24, 4);
    at = put(at, kind == 1 ? 36 : 0, 4);
    at = put(at, (uint32_t)log_at(kind), 4);
    at = put(at, n, 4);
    at = put(at, id, 4);
    at = put(at, value, 4);
    at = put(at, g, 4);
    if (kind == 1)
        put_nonce(put(at, g + n, 4), 200);
    q->id = id;
    q->nonce_len = VMC_NONCE_LEN;
    put_nonce(q->nonce, 200);
}

static size_t other_length(size_t len)
{
    return below(2) == 0 ? below((uint32_t)len + 1) : len + 1 + below(SLACK - 1);
}

/* One random change; any of them may happen to change nothing. */
static void damage(struct question *q)
{
    switch (below(10)) {
    case 0: /* the header, the confirmation and the clock certificate get as many changes as all the rest */
        if (q->proof_len > 0)
            q->proof[below(q->proof_len < 60 ? (uint32_t)q->proof_len : 60)] = (uint8_t)below(256);
        break;
    case 1:
        if (q->proof_len > 0)
            q->proof[below((uint32_t)q->proof_len)] = (uint8_t)below(256);
        break;
    case 2: /* the last byte of a field, so that the number is near the right one */
        if (q->proof_len >= 4)
            q->proof[4 * below((uint32_t)q->proof_len / 4) + 3] ^= (uint8_t)(1 + below(3));
        break;
    case 3:
    case 4:
        if (q->verdicts_len > 0)
            q->verdicts[below((uint32_t)q->verdicts_len)] ^= 1;
        break;
    case 5:
        if (q->verdicts_len > 0)
            q->verdicts[below((uint32_t)q->verdicts_len)] = (uint8_t)below(256);
        break;
    case 6:
        q->proof_len = other_length(q->proof_len);
        break;
    case 7:
        q->verdicts_len = other_length(q->verdicts_len);
        break;
    case 8:
        q->id = below(2) == 0 ? below(3) : q->id + 1;
        break;
    default:
        if (below(2) == 0)
            q->nonce[below(VMC_NONCE_LEN)] ^= (uint8_t)(1 + below(255));
        else
            q->nonce_len = other_length(q->nonce_len);
    }
}

/* A change in one of the entries that lie whole in the proof, after which, mostly, the nonces are the digests again. */
static void damage_entries(struct question *q)
{
    struct place p = first_place(q);
    uint32_t what = below(4), skipped = below(8);

    while (skipped-- > 0 && look(q, &p))
        move_on(&p);
    if (!look(q, &p))
        return;
    uint8_t *entry = q->proof + p.at, *request = entry + HEAD_LEN;
    switch (what) {
    case 0: /* another reading, near the right one */
        entry[3] ^= (uint8_t)(1 + below(3));
        break;
    case 1: /* another count, whatever becomes of the rest */
        put(entry + COUNT, below(10), 4);
        break;
    case 2: /* one of the requests names a counter that another one names */
        if (p.count > 1)
            memcpy(request + VMC_REQUEST_LEN * below(p.count) + ID, request + VMC_REQUEST_LEN * below(p.count) + ID, 4);
        break;
    default: /* a request's value before or counter */
        if (p.count > 0)
            request[VMC_REQUEST_LEN * below(p.count) + ID + 3 + 4 * below(2)] ^= (uint8_t)(1 + below(3));
    }
    if (below(4) == 0)
        return;
    for (p = first_place(q); look(q, &p); move_on(&p))
        seal(q->proof + p.at);
}

static bool same(vmc_desk_figures a, vmc_desk_figures b)
{
    return a.number == b.number && a.value == b.value && a.closing == b.closing && a.place == b.place && a.openings == b.openings;
}

static void print_figures(const char *name, vmc_desk_figures f)
{
    printf("%s %u %u %u %u %u", name, (unsigned)f.number, (unsigned)f.value, (unsigned)f.closing, (unsigned)f.place, (unsigned)f.openings);
}

/* Whether an entry, in a proof that passes checks 1 to 6, has the wanted counter's request without its owner's signature; where its nonce has to be the
 * wanted one too, that counts. */
static bool is_unsigned(const struct question *q, struct place p, bool wanted_nonce)
{
    for (uint32_t j = 0; j < p.count; j++) {
        const uint8_t *request = q->proof + p.at + HEAD_LEN + VMC_REQUEST_LEN * j;
        if (get(request + ID) == q->id)
            return !q->verdicts[p.verdict + 1 + j] && (!wanted_nonce || memcmp(request, q->nonce, VMC_NONCE_LEN) == 0);
    }
    return false;
}

static bool unsigned_before(const struct question *q, uint32_t place)
{
    struct place p = first_place(q);
    for (uint32_t i = 1; i < place && look(q, &p); i++, move_on(&p))
        if (is_unsigned(q, p, false))
            return true;
    return false;
}

static bool last_unsigned(const struct question *q, uint32_t n)
{
    struct place p = first_place(q);
    for (uint32_t i = 1; i < n && look(q, &p); i++)
        move_on(&p);
    return look(q, &p) && is_unsigned(q, p, true);
}

/* Whether a proof has an entry with a count from one to another. */
static bool has_count(const struct question *q, uint32_t least, uint32_t most)
{
    for (struct place p = first_place(q); look(q, &p); move_on(&p))
        if (least <= p.count && p.count <= most)
            return true;
    return false;
}

/* Cases with an unsigned request of the wanted counter: accepted, refused by 13 behind it, and refused by 10 for nothing else than that it
 * is in the last entry of kind 2. */
struct unsigned_met {
    unsigned long accepted;
    unsigned long behind;
    unsigned long last;
};

static void count_unsigned(struct unsigned_met *met, const struct question *q, vmc_desk_figures figures)
{
    uint32_t n = (uint32_t)q->proof[22] << 8 | q->proof[23];

    if (figures.number == 0 && unsigned_before(q, n + 1))
        met->accepted++;
    if (figures.number == 13 && unsigned_before(q, figures.place))
        met->behind++;
    if (figures.number == 10 && q->proof[3] == 2 && last_unsigned(q, n))
        met->last++;
}

/* Whether all implementations agree on all cases, every number was met, and so were openings, shared entries, ticks and unsigned requests. */
static bool compare(struct question *q)
{
    static const uint32_t most_entries[] = {3, 12, 12, VMC_MAX_UNITS};
    unsigned long met[ABOVE_NUMBERS] = {0};
    unsigned long differing = 0, with_openings = 0, with_shared = 0, with_ticks = 0;
    struct unsigned_met with_unsigned = {0};

    /* Bytes that are lent beyond a proof's end are zero or left from an earlier case. */
    memset(q, 0, sizeof *q);
    for (int i = 0; i < CASES; i++) {
        uint32_t kind = 1 + below(2);
        /* One case in 64 is long. */
        uint32_t n = kind - 1 + below(most_entries[below(64) == 0 ? 3 : below(3)]);
        uint32_t g = below(8) == 0 ? UINT32_MAX - below(2 * n + 1) : below(UINT32_MAX);
        uint32_t value = below(8) == 0 ? g : below(g);
        uint32_t id = 1 + below(1000);
        struct manner manner = {.every = 1 + below(3), .unsigned_every = below(5), .requests = below(2)};
        build(q, kind, id, value, g, n, manner);
        for (uint32_t changes = below(3); changes > 0; changes--)
            damage_entries(q);
        for (uint32_t changes = below(3); changes > 0; changes--)
            damage(q);

        vmc_desk_figures figures[IMPLEMENTATIONS];
        for (int k = 0; k < IMPLEMENTATIONS; k++)
            figures[k] = ask(implementations[k], q);
        met[figures[0].number < ABOVE_NUMBERS ? figures[0].number : 0]++;
        if (figures[0].openings > 0)
            with_openings++;
        if (figures[1].number == 0 && has_count(q, 2, VMC_MAX_REQUESTS))
            with_shared++;
        if (figures[1].number == 0 && has_count(q, 0, 0))
            with_ticks++;
        /* By a plain desk's answer: whatever the proved one says, the bytes that are looked at are there. */
        count_unsigned(&with_unsigned, q, figures[1]);
        for (int k = 1; k < IMPLEMENTATIONS; k++) {
            if (same(figures[0], figures[k]) || ++differing > 10)
                continue;
            printf("case %d differs: ", i);
            print_figures(names[0], figures[0]);
            printf(", ");
            print_figures(names[k], figures[k]);
            printf("\n");
        }
    }

    printf("%d cases compared, %lu differences. Cases by number:", CASES, differing);
    bool all_met = true;
    for (int i = 0; i < NUMBERS; i++) {
        printf(" %u:%lu", (unsigned)numbers[i], met[numbers[i]]);
        all_met = all_met && met[numbers[i]] > 0;
    }
    printf("; accepted with openings: %lu, with a shared entry %lu, with a tick %lu\n", with_openings, with_shared, with_ticks);
    printf("With an unsigned request of the wanted counter: accepted %lu, 13 behind it %lu, 10 for it in the last entry %lu\n", with_unsigned.accepted,
           with_unsigned.behind, with_unsigned.last);
    all_met = all_met && with_openings > 0 && with_shared > 0 && with_ticks > 0 && with_unsigned.accepted > 0 && with_unsigned.behind > 0 && with_unsigned.last > 0;
    if (!all_met)
        printf("error: a number was never met, or openings, a shared entry, a tick or an unsigned request never were\n");
    return differing == 0 && all_met;
}

/* Times all implementations on one question, in turn, round by round, so that a slow spell of the machine falls on all alike. */
static void measure(const char *title, const struct question *q)
{
    static double times[IMPLEMENTATIONS][ROUNDS];
    double median[IMPLEMENTATIONS], best_plain = 0;
    volatile uint32_t sink = 0;

    for (int round = 0; round < ROUNDS; round++) {
        for (int turn = 0; turn < IMPLEMENTATIONS; turn++) {
            int k = (round + turn) % IMPLEMENTATIONS;
            double start = now_ns();
            for (int call = 0; call < CALLS; call++)
                sink += ask(implementations[k], q).value;
            times[k][round] = (now_ns() - start) / CALLS;
        }
    }

    (void)sink;
    vmc_desk_figures figures = ask(vmc_desk_verify, q);
    printf("%s: answer %u, value %u, openings %u\n", title, (unsigned)figures.number, (unsigned)figures.value, (unsigned)figures.openings);
    for (int k = 0; k < IMPLEMENTATIONS; k++) {
        qsort(times[k], ROUNDS, sizeof times[k][0], by_size);
        median[k] = times[k][ROUNDS / 2];
        if (k > 0 && (best_plain == 0 || median[k] < best_plain))
            best_plain = median[k];
        printf("  %-20s %8.1f ns a proof (median of %d rounds; best %.1f)\n", names[k], median[k], ROUNDS, times[k][0]);
    }
    printf("  ratio: %.2f of C loop after loop, %.2f of the faster C\n", median[0] / median[1], median[0] / best_plain);
}

/* Proofs of few entries. */
static void measure_short(struct question *q)
{
    for (uint32_t kind = 1; kind <= 2; kind++) {
        for (uint32_t n = kind - 1; n <= 2; n++) {
            char title[64];
            snprintf(title, sizeof title, "kind %u, entries %u", (unsigned)kind, (unsigned)n);
            build(q, kind, 7, 100, 100, n, (struct manner){.every = 1, .requests = 1, .in_turn = true});
            measure(title, q);
        }
    }
}

/* The long proofs that are timed: each has 1,024 requests and ticks. */
static const struct {
    const char *title;
    uint32_t entries;
    struct manner manner;
} timed[] = {
    {"1,024 entries of one request, all of the wanted counter", 1024, {.every = 1, .requests = 1, .in_turn = true}},
    {"1,024 entries of one request, every 64th of the wanted counter", 1024, {.every = 64, .requests = 1, .in_turn = true}},
    {"1,024 entries of one request, all of the wanted counter, every third unsigned", 1024,
     {.every = 1, .unsigned_every = 3, .requests = 1, .in_turn = true}},
    {"128 entries of eight requests, one of them the wanted counter's", 128, {.every = 1, .requests = 8, .in_turn = true}},
};

int main(void)
{
    static struct question q;

    if (!compare(&q))
        return 1;
    printf("Times with warm buffers: the same proof is verified again and again.\n");
    for (size_t i = 0; i < sizeof timed / sizeof timed[0]; i++) {
        build(&q, 1, 7, 100, 100, timed[i].entries, timed[i].manner);
        measure(timed[i].title, &q);
    }
    measure_short(&q);
    return 0;
}

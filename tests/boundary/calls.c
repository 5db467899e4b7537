/* Every call of ledger.h through the linked archive: what it writes, word for word, and that a refused one writes nothing. That the functions meet
 * their definitions is proved; what is tried here is that C and the archive agree on how arguments and results are passed. */
#include "ledger.h"
#include <inttypes.h>
#include <stdio.h>
#include <string.h>

enum { ROWS = 2, SLOTS = ROWS * LEDGER_SLOT_WORDS, POSTINGS = ROWS * LEDGER_POSTING_WORDS };
enum { MOST_ATOMS = 1048576, MOST_WORDS = MOST_ATOMS / 64 };

/* All that is ever lent, with a word between that no call may touch. */
struct lent {
    uint64_t limits[LEDGER_LIMIT_WORDS], a, head[LEDGER_HEAD_WORDS], b, answer[LEDGER_ANSWER_WORDS], c, meter[LEDGER_METER_WORDS], d;
    uint64_t cursor[LEDGER_CURSOR_WORDS], e, slots[SLOTS], f, postings[POSTINGS], g, held[2], h, cut[2], i, found[ROWS], j, atoms[128], k;
};

/* Two ledgers; the tier's answer and meter are lent. */
struct two {
    struct lent tier, store;
};

static int calls, wrong;

/* The call gave `result`, and left exactly the words `after`. */
static void same_words(const char *what, uint64_t want, uint64_t result, const void *now, const void *after, size_t bytes)
{
    const uint64_t *left = now, *expected = after;
    calls++;
    if (want == result && memcmp(now, after, bytes) == 0)
        return;
    wrong++;
    printf("%s: %" PRIu64 " for %" PRIu64 "\n", what, result, want);
    for (size_t k = 0; k < bytes / sizeof(uint64_t); k++)
        if (left[k] != expected[k])
            printf("  word %zu: %" PRIx64 " for %" PRIx64 "\n", k, left[k], expected[k]);
}
static void same(const char *what, uint64_t want, uint64_t result, const struct lent *now, const struct lent *after)
{
    same_words(what, want, result, now, after, sizeof *now);
}
static void same_two(const char *what, uint64_t want, uint64_t result, const struct two *now, const struct two *after)
{
    same_words(what, want, result, now, after, sizeof *now);
}

static uint64_t make(struct lent *l, size_t slots, size_t postings)
{
    return ledger_make(l->limits, 9, l->head, l->answer, l->slots, slots, l->postings, postings);
}
static uint64_t begin(struct lent *l) { return ledger_begin(l->head, l->answer, l->slots, SLOTS, l->postings, POSTINGS); }
static uint64_t hit(struct lent *l, uint64_t p) { return ledger_hit(l->head, l->answer, l->slots, SLOTS, l->postings, POSTINGS, p); }
static uint64_t deduce(struct lent *l, uint64_t p)
{
    return ledger_deduce(l->head, l->answer, l->meter, l->slots, SLOTS, l->postings, POSTINGS, p, l->held, 2, l->cut, 2);
}
static uint64_t output(struct lent *l, uint64_t p)
{
    return ledger_next_output(l->head, l->answer, l->meter, l->cursor, l->slots, SLOTS, l->postings, POSTINGS, p, l->held, 2, l->cut, 2);
}
static uint64_t decide(struct lent *l, uint64_t atom, uint64_t value)
{
    return ledger_decide(l->answer, 128, l->held, 2, l->cut, 2, atom, value);
}

static uint64_t offer_as(struct lent *l, uint64_t condition, uint64_t output, uint64_t source)
{
    return ledger_offer(l->head, l->answer, l->meter, l->slots, SLOTS, l->postings, POSTINGS, &condition, 1, &output, 1, source);
}
static uint64_t offer(struct lent *l, uint64_t condition, uint64_t output) { return offer_as(l, condition, output, LEDGER_SOURCE_FOUNDED); }
static uint64_t candidates(struct lent *l, size_t found)
{
    return ledger_candidates(l->head, l->answer, l->meter, l->slots, SLOTS, l->postings, POSTINGS, l->atoms, 1, l->found, found);
}
static uint64_t close(struct lent *l, size_t atoms)
{
    return ledger_close(l->head, l->answer, l->meter, l->slots, SLOTS, l->postings, POSTINGS, l->held, 2, l->cut, 2, l->found, ROWS, l->atoms, atoms);
}
static uint64_t seed(struct two *l, size_t slots)
{
    return ledger_seed(l->tier.head, l->store.head, l->tier.answer, l->tier.meter, l->tier.slots, SLOTS, l->tier.postings, POSTINGS,
                       l->store.slots, slots, l->store.postings, POSTINGS);
}
static uint64_t deliver(struct two *l, size_t postings)
{
    return ledger_deliver(l->tier.head, l->store.head, l->tier.answer, l->tier.meter, l->tier.slots, SLOTS, l->tier.postings, POSTINGS,
                          l->store.slots, SLOTS, l->store.postings, postings);
}

static void answer(struct lent *l, uint64_t number, uint64_t value, uint64_t ticks)
{
    l->answer[LEDGER_CASE] = number;
    l->answer[LEDGER_VALUE] = value;
    l->answer[LEDGER_TICKS] = ticks;
    l->answer[LEDGER_CONTRADICTED] = 0;
    l->meter[LEDGER_CHARGED] += ticks;
}

/* A closing that names a contradicted output. */
static void named(struct lent *l, uint64_t number, uint64_t output, uint64_t ticks)
{
    answer(l, number, LEDGER_NAMED, ticks);
    l->answer[LEDGER_CONTRADICTED] = output;
}

/* Two rows over 128 atoms: 7 -> 140, scalar, and 1, 3 -> 140, 142, packed. Words that no call has written yet are odd ones. */
static struct lent two_rows(void)
{
    struct lent l;
    memset(&l, 0xa5, sizeof l);
    const uint64_t limits[LEDGER_LIMIT_WORDS] = {128, ROWS, 16, 64, 1, 256, 131072, 131071, 8, 3};
    const uint64_t scalar[] = {1, 1, 0, 0, 0, 0, 1, 0, 7, 140};
    const uint64_t packed[] = {2, 2, 2, 1, 0, 0, 2, 0, 0, 3, 0, 1, 0, 0xc0};
    memcpy(l.limits, limits, sizeof limits);
    make(&l, SLOTS, POSTINGS);
    l.head[LEDGER_ROWS] = l.head[LEDGER_BORN] = l.head[LEDGER_FOUNDED] = 2;
    memcpy(l.slots, scalar, sizeof scalar);
    memcpy(l.slots + LEDGER_SLOT_WORDS, packed, sizeof packed);
    memset(l.held, 0, sizeof l.held);
    memset(l.cut, 0, sizeof l.cut);
    memset(l.cursor, 0, sizeof l.cursor);
    l.meter[LEDGER_CHARGED] = 1000;
    l.meter[LEDGER_LIMIT] = 2000;
    return l;
}

static void made(void)
{
    struct lent l = two_rows(), k;
    memset(l.slots, 0x5a, sizeof l.slots);
    memset(l.postings, 0x5a, sizeof l.postings);
    k = l;
    memset(k.slots, 0, sizeof k.slots);
    memset(k.postings, 0, sizeof k.postings);
    memset(k.head, 0, sizeof k.head);
    memcpy(k.head, k.limits, sizeof k.limits);
    k.head[LEDGER_NUMBER] = 9;
    k.head[LEDGER_REMAINING] = 131072;
    k.head[LEDGER_SHARING] = 131071;
    k.head[LEDGER_STALE] = k.head[LEDGER_FULL] = 1;
    answer(&k, LEDGER_DONE, 0, 0);
    same("make", 0, make(&l, SLOTS, POSTINGS), &l, &k);
    same("make, slots short", 2, make(&l, SLOTS - 1, POSTINGS), &l, &k);
    same("make, postings short", 2, make(&l, SLOTS, POSTINGS - 1), &l, &k);
    const uint64_t outside[] = {MOST_ATOMS + 1, 4097, 17, 65};
    for (size_t n = 0; n < 4; n++) {
        uint64_t old = l.limits[n];
        l.limits[n] = k.limits[n] = outside[n];
        same("make, limits", 1, make(&l, SLOTS, POSTINGS), &l, &k);
        l.limits[n] = k.limits[n] = old;
    }
}

static void begun(void)
{
    struct lent l = two_rows(), k;
    l.head[LEDGER_STALE] = 2; /* any word but 0 is read as 1 */
    l.head[LEDGER_FULL] = 0;
    l.head[LEDGER_MARKED] = 5;
    l.head[LEDGER_MARK_NUMBER] = 11;
    l.head[LEDGER_MARK_BORN] = 12;
    k = l;
    k.head[LEDGER_STALE] = k.head[LEDGER_FULL] = k.head[LEDGER_MARKED] = 1;
    answer(&k, LEDGER_DONE, 0, 0);
    same("begin", 0, begin(&l), &l, &k);
    l.head[LEDGER_MARKED] = k.head[LEDGER_MARKED] = 0;
    k.head[LEDGER_MARK_NUMBER] = k.head[LEDGER_MARK_BORN] = 0;
    same("begin, no mark", 0, begin(&l), &l, &k);
    l.head[LEDGER_STALE] = k.head[LEDGER_STALE] = 0;
    same("begin, postings not built", 3, begin(&l), &l, &k);
}

static void hits(void)
{
    struct lent l = two_rows(), k = l;
    answer(&k, LEDGER_DONE, 0, 0);
    k.slots[LEDGER_SLOT_WORDS + 4] = k.slots[LEDGER_SLOT_WORDS + 5] = 1;
    same("hit", 0, hit(&l, 1), &l, &k);
    l.slots[4] = UINT64_MAX;
    k.slots[4] = UINT64_MAX;
    k.slots[5] = 1;
    same("hit at the most", 0, hit(&l, 0), &l, &k);
    same("hit, no row", 5, hit(&l, 2), &l, &k);
    l.head[LEDGER_EPOCH] = k.head[LEDGER_EPOCH] = ROWS;
    same("hit, epoch", 3, hit(&l, 0), &l, &k);
    l.head[LEDGER_TIER_ROWS] = k.head[LEDGER_TIER_ROWS] = ROWS + 1;
    same("hit, tier", 2, hit(&l, 0), &l, &k);
    l.head[LEDGER_ATOMS] = k.head[LEDGER_ATOMS] = 0;
    same("hit, atoms", 1, hit(&l, 0), &l, &k);
}

/* What the row at p says of a region: number, value, ticks, and the contradicted output. */
static void deduced(const char *what, uint64_t p, const uint64_t held[2], const uint64_t cut[2], uint64_t number, uint64_t value, uint64_t ticks,
                    uint64_t contradicted)
{
    struct lent l = two_rows(), k;
    memcpy(l.held, held, sizeof l.held);
    memcpy(l.cut, cut, sizeof l.cut);
    k = l;
    answer(&k, number, value, ticks);
    k.answer[LEDGER_CONTRADICTED] = contradicted;
    same(what, 0, deduce(&l, p), &l, &k);
}

static void deductions(void)
{
    const uint64_t none[2] = {0, 0}, three[2] = {8, 0}, seventy[2] = {0, 1 << 6}, both[2] = {1, 1 << 7}, all[2] = {1, 3 << 6};
    deduced("deduce, held 3", 0, three, none, LEDGER_FORCE, 0, 2, 0);
    deduced("deduce, held 70", 0, seventy, none, LEDGER_REQUIRE, 6, 3, 140);
    deduced("deduce, cut 3", 0, none, three, LEDGER_NOTHING, 0, 2, 0);
    deduced("deduce, empty", 0, none, none, LEDGER_NOTHING, 0, 3, 0);
    deduced("deduce, packed", 1, both, none, LEDGER_REQUIRE, 2, 3, 142);
    deduced("deduce, packed, two contradicted", 1, all, none, LEDGER_REQUIRE, 2, 3, 140);
    struct lent l = two_rows(), k;
    l.meter[LEDGER_LIMIT] = 1001;
    k = l;
    answer(&k, LEDGER_STOPPED, 0, 1);
    same("deduce, stopped", 0, deduce(&l, 0), &l, &k);
    same("deduce, no row", 5, deduce(&l, 2), &l, &k);
    l.held[0] = k.held[0] = l.cut[0] = k.cut[0] = 1;
    same("deduce, no region", 6, deduce(&l, 0), &l, &k);
    l.slots[7] = k.slots[7] = 2;
    same("deduce, slot", 3, deduce(&l, 0), &l, &k);
}

static void outputs(void)
{
    struct lent l = two_rows(), k = l;
    answer(&k, LEDGER_OUTPUT, 140, 1);
    k.cursor[LEDGER_NEXT] = 1;
    same("next output", 0, output(&l, 0), &l, &k);
    answer(&k, LEDGER_END, 0, 0);
    same("next output, end", 0, output(&l, 0), &l, &k);
    l.cursor[LEDGER_NEXT] = k.cursor[LEDGER_NEXT] = 2;
    same("next output, cursor", 8, output(&l, 0), &l, &k);
    l.cursor[LEDGER_NEXT] = k.cursor[LEDGER_NEXT] = 0;
    l.cut[1] = k.cut[1] = 1 << 6; /* 140 holds already */
    answer(&k, LEDGER_OUTPUT, 142, 2);
    k.cursor[LEDGER_NEXT] = 1;
    k.cursor[LEDGER_WORD] = 1;
    same("next output, packed", 0, output(&l, 1), &l, &k);
    l.meter[LEDGER_CHARGED] = k.meter[LEDGER_CHARGED] = 2000;
    memset(l.cursor, 0, sizeof l.cursor);
    memset(k.cursor, 0, sizeof k.cursor);
    answer(&k, LEDGER_STOPPED, 0, 0);
    same("next output, stopped", 0, output(&l, 0), &l, &k);
}

static void decisions(void)
{
    struct lent l = two_rows(), k = l;
    answer(&k, LEDGER_TRUE, 0, 0);
    k.held[1] = 1 << 2;
    same("hold 66", 0, decide(&l, 66, 7), &l, &k);
    k.cut[0] = 1;
    same("cut 0", 0, decide(&l, 0, 0), &l, &k);
    same("cut 0 again", 0, decide(&l, 0, 0), &l, &k);
    answer(&k, LEDGER_FALSE, 0, 0);
    same("hold 0", 0, decide(&l, 0, 1), &l, &k);
    same("hold 128", 0, decide(&l, 128, 1), &l, &k);
    l.held[0] = k.held[0] = 1;
    same("no region", 6, decide(&l, 5, 1), &l, &k);
    same("no atoms", 6, ledger_decide(l.answer, 0, l.held, 0, l.cut, 0, 0, 1), &l, &k);
}

/* An offer that was answered: one attempt more, and its ticks are paid from the reads left. */
static void offered(struct lent *l, uint64_t number, uint64_t ticks)
{
    answer(l, number, 0, ticks);
    l->head[LEDGER_ATTEMPTS] += 1;
    l->head[LEDGER_REMAINING] -= ticks;
}

static void offers(void)
{
    struct lent l = two_rows(), k;
    make(&l, SLOTS, POSTINGS);
    k = l;
    const uint64_t one[] = {1, 1, 0, 0, 0, 0, 1, 0, 7, 140}, joined[] = {1, 2, 0, 0, 0, 0, 2, 0, 7, 140, 142};
    offered(&k, LEDGER_ADDED, 2);
    k.head[LEDGER_ROWS] = k.head[LEDGER_BORN] = k.head[LEDGER_EPOCH] = k.head[LEDGER_FOUNDED] = 1;
    memcpy(k.slots, one, sizeof one);
    same("offer", 0, offer(&l, 7, 140), &l, &k);
    offered(&k, LEDGER_SUBSUMED, 3);
    same("offer again", 0, offer(&l, 7, 140), &l, &k);
    offered(&k, LEDGER_ADDED, 14);
    k.head[LEDGER_BORN] = 2;
    k.head[LEDGER_EPOCH] = 0;
    memcpy(k.slots, joined, sizeof joined);
    same("offer, joined", 0, offer(&l, 7, 142), &l, &k);
    same("offer, no row", 4, offer(&l, 256, 140), &l, &k);
    same("offer, no output over the atoms", 4, offer(&l, 7, 256), &l, &k);
    l.head[LEDGER_ATTEMPTS] = k.head[LEDGER_ATTEMPTS] = 256;
    answer(&k, LEDGER_SHUT, 0, 0);
    same("offer, shut", 0, offer(&l, 9, 140), &l, &k);
    l.head[LEDGER_ATTEMPTS] = k.head[LEDGER_ATTEMPTS] = 257;
    same("offer, attempts", 3, offer(&l, 9, 140), &l, &k);
}

/* A Tip, joined with a Founded row; another Tip beside it, which gives way to a Founded row; the sources and counts that are refused. */
static void tips(void)
{
    struct lent l = two_rows(), k;
    make(&l, SLOTS, POSTINGS);
    k = l;
    const uint64_t one[] = {1, 1, 0, 0, 0, 0, 1, 0, 7, 140}, joined[] = {1, 2, 0, 0, 0, 0, 2, 0, 7, 140, 142};
    const uint64_t second[] = {1, 1, 0, 0, 0, 0, 3, 0, 9, 140}, third[] = {1, 1, 0, 0, 0, 0, 4, 0, 11, 144};
    uint64_t *source = k.slots + LEDGER_SLOT_SOURCE, *next_slot = k.slots + LEDGER_SLOT_WORDS;
    offered(&k, LEDGER_ADDED, 2);
    k.head[LEDGER_ROWS] = k.head[LEDGER_BORN] = k.head[LEDGER_EPOCH] = 1;
    memcpy(k.slots, one, sizeof one);
    *source = LEDGER_SOURCE_TIP;
    same("offer, a Tip", 0, offer_as(&l, 7, 140, LEDGER_SOURCE_TIP), &l, &k);
    offered(&k, LEDGER_SUBSUMED, 3);
    same("offer, what a Tip says", 0, offer(&l, 7, 140), &l, &k);
    offered(&k, LEDGER_ADDED, 14);
    k.head[LEDGER_BORN] = 2;
    k.head[LEDGER_EPOCH] = 0;
    k.head[LEDGER_FOUNDED] = 1;
    memcpy(k.slots, joined, sizeof joined);
    *source = LEDGER_SOURCE_FOUNDED;
    same("offer, joined with a Tip", 0, offer(&l, 7, 142), &l, &k);
    offered(&k, LEDGER_ADDED, 6); /* 4 to compare it with the row, 2 to write it */
    k.answer[LEDGER_VALUE] = 1;
    k.head[LEDGER_ROWS] = 2;
    k.head[LEDGER_BORN] = 3;
    k.head[LEDGER_EPOCH] = 1;
    memcpy(next_slot, second, sizeof second);
    next_slot[LEDGER_SLOT_SOURCE] = LEDGER_SOURCE_TIP;
    same("offer, a Tip beside a Founded row", 0, offer_as(&l, 9, 140, LEDGER_SOURCE_TIP), &l, &k);
    offered(&k, LEDGER_ADDED, 14); /* 4 and 6 to compare it with the rows, 2 to write it, 1 a row for the eviction */
    k.answer[LEDGER_VALUE] = 1;
    k.head[LEDGER_BORN] = 4;
    k.head[LEDGER_EPOCH] = 0;
    k.head[LEDGER_EVICTED] = 1;
    k.head[LEDGER_FOUNDED] = 2;
    memcpy(next_slot, third, sizeof third);
    next_slot[LEDGER_SLOT_SOURCE] = LEDGER_SOURCE_FOUNDED;
    same("offer, in the place of a Tip", 0, offer(&l, 11, 144), &l, &k);
    l.head[LEDGER_FOUNDED_FLOOR] = k.head[LEDGER_FOUNDED_FLOOR] = 2;
    answer(&k, LEDGER_SHUT, 0, 0);
    same("offer, full up to the floor", 0, offer_as(&l, 7, 140, LEDGER_SOURCE_TIP), &l, &k);
    const uint64_t sources[] = {2, UINT64_C(1) << 32, UINT64_MAX};
    for (size_t n = 0; n < 3; n++) {
        same("offer, a third source", 11, offer_as(&l, 7, 140, sources[n]), &l, &k);
        same("offer, a third source, no row", 4, offer_as(&l, 256, 140, sources[n]), &l, &k);
        l.head[LEDGER_FOUNDED] = k.head[LEDGER_FOUNDED] = 1 + 2 * (n % 2);
        same("offer, a third source, another count", 3, offer_as(&l, 7, 140, sources[n]), &l, &k);
        same("begin, another count", 3, begin(&l), &l, &k);
        l.head[LEDGER_FOUNDED] = k.head[LEDGER_FOUNDED] = 2;
        l.slots[LEDGER_SLOT_SOURCE] = *source = sources[n];
        same("begin, a third source", 3, begin(&l), &l, &k);
        l.slots[LEDGER_SLOT_SOURCE] = *source = LEDGER_SOURCE_FOUNDED;
    }
}

/* A region over the most atoms, and scratch for it. */
static uint64_t all_held[MOST_WORDS + 1], all_cut[MOST_WORDS + 1], all_atoms[MOST_ATOMS];

static uint64_t decide_last(struct lent *l, uint64_t atoms, size_t words)
{
    return ledger_decide(l->answer, atoms, all_held, words, all_cut, words, MOST_ATOMS - 1, 0);
}

/* Over the most atoms: a row that holds the last one, which a closing marks; codes that are too large. Over one more there is no region. */
static void most_atoms(void)
{
    struct lent l = two_rows(), k;
    const uint64_t last = 2 * MOST_ATOMS - 1, row[] = {1, 1, 0, 0, 0, 0, 1, 0, 7, last};
    l.limits[LEDGER_ATOMS] = MOST_ATOMS;
    make(&l, SLOTS, POSTINGS);
    k = l;
    offered(&k, LEDGER_ADDED, 2);
    k.head[LEDGER_ROWS] = k.head[LEDGER_BORN] = k.head[LEDGER_EPOCH] = k.head[LEDGER_FOUNDED] = 1;
    memcpy(k.slots, row, sizeof row);
    same("offer, the last atom", 0, offer(&l, 7, last), &l, &k);
    same("offer, no atom any more", 4, offer(&l, 9, last + 1), &l, &k);
    same("offer, a code and 2^32", 4, offer(&l, (UINT64_C(1) << 32) + 9, last), &l, &k);
    all_held[0] = 8;
    answer(&k, LEDGER_CLOSED, 0, 6); /* two rounds: 2 to deduce the row, 1 for its output */
    k.head[LEDGER_FULL] = 0;
    k.slots[4] = k.slots[5] = 1;
    memset(k.found, 0, sizeof k.found);
    uint64_t result = ledger_close(l.head, l.answer, l.meter, l.slots, SLOTS, l.postings, POSTINGS, all_held, MOST_WORDS, all_cut, MOST_WORDS, l.found,
                                   ROWS, all_atoms, MOST_ATOMS);
    same("close, the last atom", all_held[MOST_WORDS - 1] == UINT64_C(1) << 63 ? 0 : 99, result, &l, &k);
    answer(&k, LEDGER_FALSE, 0, 0);
    same("decide, the last atom", 0, decide_last(&l, MOST_ATOMS, MOST_WORDS), &l, &k);
    same("decide, too many atoms", 6, decide_last(&l, MOST_ATOMS + 1, MOST_WORDS + 1), &l, &k);
}

static void searches(void)
{
    struct lent l = two_rows(), k = l;
    same("candidates, found short", 2, candidates(&l, ROWS - 1), &l, &k);
    answer(&k, LEDGER_DONE, 2, 0);
    k.head[LEDGER_FULL] = 0;
    k.found[0] = 0;
    k.found[1] = 1;
    same("candidates", 0, candidates(&l, ROWS), &l, &k);
}

static void closings(void)
{
    struct lent l = two_rows(), k;
    l.held[0] = 8;
    k = l;
    same("close, atoms short", 2, close(&l, 127), &l, &k);
    l.cut[0] = k.cut[0] = 8;
    same("close, no region", 6, close(&l, 128), &l, &k);
    l.cut[0] = k.cut[0] = 0;
    l.meter[LEDGER_CHARGED] = k.meter[LEDGER_CHARGED] = 2000;
    answer(&k, LEDGER_STOPPED, 0, 0);
    k.head[LEDGER_FULL] = 0;
    memset(k.found, 0, sizeof k.found);
    memset(k.atoms, 0, sizeof k.atoms);
    same("close, stopped", 0, close(&l, 128), &l, &k);
    l.meter[LEDGER_CHARGED] = k.meter[LEDGER_CHARGED] = 1000;
    answer(&k, LEDGER_CLOSED, 0, 10); /* two rounds: 2 to deduce each row, 1 for the output of the first */
    k.cut[1] = 1 << 6;
    k.slots[4] = k.slots[5] = 1; /* in the first round; the second decides nothing */
    same("close", 0, close(&l, 128), &l, &k);
    l.meter[LEDGER_CHARGED] = k.meter[LEDGER_CHARGED] = 1000;
    answer(&k, LEDGER_CLOSED, 0, 5); /* a round that decides nothing, and no hit */
    same("close, closed before", 0, close(&l, 128), &l, &k);
    l.meter[LEDGER_CHARGED] = k.meter[LEDGER_CHARGED] = 1000;
    l.cut[1] = k.cut[1] = 0;
    l.held[1] = k.held[1] = 1 << 6;
    answer(&k, LEDGER_CONFLICT, LEDGER_NONE, 3); /* 2 to deduce the first row, 1 for its output */
    k.slots[4] = k.slots[5] = 2;
    same("close, against the region", 0, close(&l, 128), &l, &k);
}

/* Atoms 0, 70 and 71 are held: the first row requires atom 3 cut by 140, then the second atom 1 cut, by 140 too. With 70 open the first
 * row says nothing, and the second speaks by 142. */
static void requires(void)
{
    struct lent l = two_rows(), k;
    l.held[0] = 1;
    l.held[1] = 3 << 6;
    k = l;
    struct lent stopped = l, after;
    named(&k, LEDGER_CLOSED, 140, 10); /* two rounds: 3 to deduce each row, then 2 each */
    k.head[LEDGER_FULL] = 0;
    k.cut[0] = 1 << 3 | 1 << 1;
    k.slots[4] = k.slots[5] = k.slots[LEDGER_SLOT_WORDS + 4] = k.slots[LEDGER_SLOT_WORDS + 5] = 1;
    memset(k.found, 0, sizeof k.found);
    memset(k.atoms, 0, sizeof k.atoms);
    same("close, required", 0, close(&l, 128), &l, &k);
    /* Stopped after the first row. */
    stopped.meter[LEDGER_LIMIT] = 1003;
    after = k;
    after.meter[LEDGER_CHARGED] = 1000;
    after.meter[LEDGER_LIMIT] = 1003;
    named(&after, LEDGER_STOPPED, 140, 3);
    after.cut[0] = 1 << 3;
    after.slots[LEDGER_SLOT_WORDS + 4] = after.slots[LEDGER_SLOT_WORDS + 5] = 0;
    same("close, stopped after a Require", 0, close(&stopped, 128), &stopped, &after);
    l = two_rows();
    l.held[0] = 1;
    l.held[1] = 1 << 7;
    k.held[1] = 1 << 7;
    k.cut[0] = 1 << 1;
    k.meter[LEDGER_CHARGED] = 1000;
    named(&k, LEDGER_CLOSED, 142, 11);
    k.slots[4] = k.slots[5] = 0;
    same("close, required by another output", 0, close(&l, 128), &l, &k);
    /* Atoms 0, 1 and 70: the first row requires, then the second is against the region. */
    l = two_rows();
    l.held[0] = k.held[0] = 3;
    l.held[1] = k.held[1] = 1 << 6;
    k.cut[0] = 1 << 3;
    k.meter[LEDGER_CHARGED] = 1000;
    named(&k, LEDGER_CONFLICT, 140, 7); /* 3 and 2 to deduce the rows, 2 for the second's output */
    k.slots[4] = k.slots[5] = 1;
    same("close, against the region after a Require", 0, close(&l, 128), &l, &k);
}

/* A store, number 4, and a tier, number 9, one with the two rows, the first hit five times, the second a Tip, and one with none. */
static struct two giver_and_receiver(int seeding)
{
    struct lent giver = two_rows(), receiver = two_rows();
    giver.slots[4] = giver.slots[5] = 5;
    giver.slots[LEDGER_SLOT_WORDS + LEDGER_SLOT_SOURCE] = LEDGER_SOURCE_TIP;
    giver.head[LEDGER_FOUNDED] = 1;
    make(&receiver, SLOTS, POSTINGS);
    struct two l = seeding ? (struct two){receiver, giver} : (struct two){giver, receiver};
    l.store.head[LEDGER_NUMBER] = 4;
    return l;
}

/* Both rows taken: born anew, each with its source, and the hits that came with them halved, for the tier has two rows. */
static void took_both(struct lent *l)
{
    const uint64_t scalar[] = {1, 1, 0, 0, 2, 0, 1, 0, 7, 140}, packed[] = {2, 2, 2, 1, 0, 0, 2, 0, 0, 3, 0, 1, 0, 0xc0};
    memcpy(l->slots, scalar, sizeof scalar);
    memcpy(l->slots + LEDGER_SLOT_WORDS, packed, sizeof packed);
    l->slots[LEDGER_SLOT_WORDS + LEDGER_SLOT_SOURCE] = LEDGER_SOURCE_TIP;
    l->head[LEDGER_ROWS] = l->head[LEDGER_BORN] = 2;
    l->head[LEDGER_FOUNDED] = 1;
}

/* Each ledger's refusals, the tier's first; the tier and the store are each made unfit and then fit again. */
static void unfit(const char *what, uint64_t (*call)(struct two *, size_t), size_t length)
{
    struct two l = giver_and_receiver(1), k;
    l.tier.head[LEDGER_EPOCH] = ROWS;
    l.store.head[LEDGER_ATOMS] = 0;
    k = l;
    same_two(what, 3, call(&l, length), &l, &k);
    l.tier.head[LEDGER_EPOCH] = k.tier.head[LEDGER_EPOCH] = 0;
    same_two(what, 1, call(&l, length), &l, &k);
    l.store.head[LEDGER_ATOMS] = k.store.head[LEDGER_ATOMS] = 127;
    same_two(what, 2, call(&l, length - 1), &l, &k);
    same_two(what, 7, call(&l, length), &l, &k);
    l.store.slots[7] = k.store.slots[7] = 2;
    same_two(what, 3, call(&l, length), &l, &k);
    l.tier.head[LEDGER_TIER_ROWS] = k.tier.head[LEDGER_TIER_ROWS] = ROWS + 1;
    same_two(what, 2, call(&l, length), &l, &k);
    l.tier.head[LEDGER_FOUNDED_OUTPUTS] = k.tier.head[LEDGER_FOUNDED_OUTPUTS] = 65;
    same_two(what, 1, call(&l, length), &l, &k);
}

static void seedings(void)
{
    struct two l = giver_and_receiver(1), k = l;
    answer(&k.tier, LEDGER_DONE, 0, 20); /* 3 and 5 to read the rows, 2 to compare the second with the first, 2 and 8 to write them */
    took_both(&k.tier);
    k.tier.slots[7] = k.tier.slots[LEDGER_SLOT_WORDS + 7] = 1;
    k.tier.head[LEDGER_SHARING] -= 20;
    k.tier.head[LEDGER_MARKED] = 1;
    k.tier.head[LEDGER_MARK_NUMBER] = 4;
    k.tier.head[LEDGER_MARK_BORN] = 2;
    k.store.head[LEDGER_SEEDED] = 2;
    same_two("seed", 0, seed(&l, SLOTS), &l, &k);
    answer(&k.tier, LEDGER_DONE, 0, 2);
    same_two("seed again", 0, seed(&l, SLOTS), &l, &k);
    l.tier.meter[LEDGER_CHARGED] = k.tier.meter[LEDGER_CHARGED] = 1999;
    answer(&k.tier, LEDGER_STOPPED, 0, 1);
    same_two("seed, stopped", 0, seed(&l, SLOTS), &l, &k);
    unfit("seed, unfit", seed, SLOTS);
}

static void deliveries(void)
{
    struct two l = giver_and_receiver(0), k = l;
    answer(&k.tier, LEDGER_DONE, 0, 22); /* as seed, and 1 for each row */
    took_both(&k.store);
    k.tier.slots[5] = 0;
    k.tier.slots[7] = k.tier.slots[LEDGER_SLOT_WORDS + 7] = 1;
    k.tier.head[LEDGER_SHARING] -= 20;
    k.store.head[LEDGER_DELIVERIES] = 2;
    same_two("deliver", 0, deliver(&l, POSTINGS), &l, &k);
    answer(&k.tier, LEDGER_DONE, 0, 2);
    same_two("deliver again", 0, deliver(&l, POSTINGS), &l, &k);
    l.tier.slots[4] = k.tier.slots[4] = 6;
    l.tier.slots[5] = 1;
    answer(&k.tier, LEDGER_DONE, 0, 8); /* 1 for each row, 3 to read the first, 3 to find it subsumed */
    k.tier.head[LEDGER_SHARING] -= 6;
    k.store.slots[4] = 3;
    same_two("deliver, a hit more", 0, deliver(&l, POSTINGS), &l, &k);
    l.tier.meter[LEDGER_CHARGED] = k.tier.meter[LEDGER_CHARGED] = 1999;
    answer(&k.tier, LEDGER_STOPPED, 0, 1);
    same_two("deliver, stopped", 0, deliver(&l, POSTINGS), &l, &k);
    unfit("deliver, unfit", deliver, POSTINGS);
}

int main(void)
{
    made();
    begun();
    hits();
    deductions();
    outputs();
    decisions();
    offers();
    tips();
    most_atoms();
    searches();
    closings();
    requires();
    seedings();
    deliveries();
    printf("%d calls, %d wrong\n", calls, wrong);
    return wrong != 0;
}

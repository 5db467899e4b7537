/* What must be so after a call, whatever it was given. That the answers are right is proved; here it is tried that what the archive does to the
 * memory is what ledger.h says. */
#include "fuzz.h"
#include <string.h>

enum { HITS = 4, UNSHARED = 5, BORN = 6, DELIVERED = 7 };

static bool same(const uint64_t *a, const uint64_t *b, size_t length) { return length == 0 || memcmp(a, b, length * sizeof(uint64_t)) == 0; }
static bool kept(const struct call *c, int b) { return same(c->lent[b], c->given[b].at, c->given[b].length); }
static struct words lent(const struct call *c, int b) { return (struct words){c->given[b].length, 0, c->lent[b]}; }

static bool zero(const uint64_t *words, size_t length)
{
    uint64_t joined = 0;
    for (size_t i = 0; i < length; i++)
        joined |= words[i];
    return joined == 0;
}

/* Every buffer of `which` that the call was lent is as it was given. */
static bool all_kept(const struct call *c, unsigned which)
{
    bool all = true;
    for (int b = 0; b < BUFFERS; b++)
        if (operations[c->operation].lends & which & BIT(b))
            all = all && kept(c, b);
    return all;
}

/* ---- Headers: what a call reads of one, and which words it changed */

/* Any flag but 0 is 1, and without a mark its two words are 0. */
static void normal_head(const uint64_t *given, uint64_t *head)
{
    memcpy(head, given, LEDGER_HEAD_WORDS * sizeof(uint64_t));
    head[LEDGER_STALE] = given[LEDGER_STALE] != 0;
    head[LEDGER_FULL] = given[LEDGER_FULL] != 0;
    head[LEDGER_MARKED] = given[LEDGER_MARKED] != 0;
    if (head[LEDGER_MARKED] == 0)
        head[LEDGER_MARK_NUMBER] = head[LEDGER_MARK_BORN] = 0;
}

/* The words of a header that a call changed, a bit a word. */
static unsigned changed(const struct call *c, int b)
{
    uint64_t before[LEDGER_HEAD_WORDS];
    unsigned words = 0;
    normal_head(c->given[b].at, before);
    for (int i = 0; i < LEDGER_HEAD_WORDS; i++)
        words |= c->lent[b][i] == before[i] ? 0 : BIT(i);
    return words;
}

#define RECEIVED                                                                                                                                  \
    (BIT(LEDGER_ROWS) | BIT(LEDGER_BORN) | BIT(LEDGER_EPOCH) | BIT(LEDGER_EVICTED) | BIT(LEDGER_STALE) | BIT(LEDGER_FULL) | BIT(LEDGER_FOUNDED))

static unsigned may_change(enum operation_number operation)
{
    switch (operation) {
    case BEGIN: return BIT(LEDGER_FULL);
    case CANDIDATES:
    case CLOSE: return BIT(LEDGER_FULL) | BIT(LEDGER_STALE);
    case OFFER: return RECEIVED | BIT(LEDGER_ATTEMPTS) | BIT(LEDGER_REMAINING);
    case SEED: return RECEIVED | BIT(LEDGER_SHARING) | BIT(LEDGER_MARKED) | BIT(LEDGER_MARK_NUMBER) | BIT(LEDGER_MARK_BORN);
    case DELIVER: return BIT(LEDGER_SHARING);
    default: return 0;
    }
}

/* ---- The ledger that comes back is a ledger */
static bool accepted(const uint64_t *head, const uint64_t *slots, size_t slots_length, const uint64_t *postings, size_t postings_length)
{
    uint64_t copy[LEDGER_HEAD_WORDS], answer[LEDGER_ANSWER_WORDS];
    memcpy(copy, head, sizeof copy);
    return ledger_begin(copy, answer, slots, slots_length, postings, postings_length) == 0 && contents_fit(head, slots, postings);
}

static bool comes_back(const struct call *c, int head, int slots, int postings)
{
    return accepted(c->lent[head], c->lent[slots], c->given[slots].length, c->lent[postings], c->given[postings].length);
}

/* ---- Slots: of each row nothing but hits and what is not shared may be other words, and these only grow */
static bool only_hits(const struct call *c)
{
    const uint64_t *now = c->lent[SLOTS], *before = c->given[SLOTS].at;
    for (uint64_t p = 0; p < c->given[HEAD].at[LEDGER_TIER_ROWS]; p++, now += LEDGER_SLOT_WORDS, before += LEDGER_SLOT_WORDS)
        if (!same(now, before, HITS) || !same(now + UNSHARED + 1, before + UNSHARED + 1, LEDGER_SLOT_WORDS - UNSHARED - 1) ||
            now[HITS] < before[HITS] || now[UNSHARED] < before[UNSHARED])
            return false;
    return true;
}

static uint64_t one_more(uint64_t n) { return n == UINT64_MAX ? n : n + 1; }

static bool one_hit(const struct call *c)
{
    size_t slot = c->position * LEDGER_SLOT_WORDS, after = slot + UNSHARED + 1;
    const uint64_t *now = c->lent[SLOTS], *before = c->given[SLOTS].at;
    return same(now, before, slot + HITS) && same(now + after, before + after, c->given[SLOTS].length - after) &&
           now[slot + HITS] == one_more(before[slot + HITS]) && now[slot + UNSHARED] == one_more(before[slot + UNSHARED]);
}

/* ---- The operations one by one; the first thing that is wrong */
static const char *after_make(const struct call *c)
{
    uint64_t fresh[LEDGER_HEAD_WORDS] = {0};
    const uint64_t *limits = c->given[LIMITS].at;
    memcpy(fresh, limits, LEDGER_LIMIT_WORDS * sizeof(uint64_t));
    fresh[LEDGER_NUMBER] = c->number;
    fresh[LEDGER_REMAINING] = limits[LEDGER_FOUNDED_WORK];
    fresh[LEDGER_SHARING] = limits[LEDGER_SHARE_WORK];
    fresh[LEDGER_STALE] = fresh[LEDGER_FULL] = 1;
    bool empty = zero(c->lent[SLOTS], c->given[SLOTS].length) && zero(c->lent[POSTINGS], c->given[POSTINGS].length);
    return same(c->lent[HEAD], fresh, LEDGER_HEAD_WORDS) && empty ? NULL : "not a fresh ledger";
}

static const char *after_decide(const struct call *c)
{
    uint64_t bit = UINT64_C(1) << c->atom % 64, word = c->atom / 64;
    int own = c->value ? HELD : CUT, opposite = c->value ? CUT : HELD;
    bool fits = c->atom < c->region_atoms && !(c->given[opposite].at[word] & bit);
    if (c->lent[ANSWER][LEDGER_CASE] != fits)
        return "the answer is not whether the atom can be marked";
    if (!fits)
        return kept(c, HELD) && kept(c, CUT) ? NULL : "false, and marked";
    if (!kept(c, opposite) || !same(c->lent[own], c->given[own].at, word) || c->lent[own][word] != (c->given[own].at[word] | bit))
        return "not that atom marked";
    return same(c->lent[own] + word + 1, c->given[own].at + word + 1, c->given[own].length - word - 1) ? NULL : "another atom marked";
}

static const char *after_offer(const struct call *c)
{
    const uint64_t *given = c->given[HEAD].at, *head = c->lent[HEAD], *answer = c->lent[ANSWER];
    bool shut = answer[LEDGER_CASE] == LEDGER_SHUT, added = answer[LEDGER_CASE] == LEDGER_ADDED;
    if (head[LEDGER_ATTEMPTS] - given[LEDGER_ATTEMPTS] != !shut)
        return "attempts";
    if (given[LEDGER_REMAINING] - head[LEDGER_REMAINING] != answer[LEDGER_TICKS])
        return "the reads left do not fall by the ticks";
    if (!added && (!kept(c, SLOTS) || !kept(c, POSTINGS) || (changed(c, HEAD) & RECEIVED)))
        return "no row added, and the ledger changed";
    if (shut != shuts(given))
        return "Shut where it is open, or not where it is shut";
    if (answer[LEDGER_CASE] >= LEDGER_SUBSUMED && answer[LEDGER_VALUE] >= head[LEDGER_ROWS])
        return "a position beyond the rows";
    if (added && c->lent[SLOTS][answer[LEDGER_VALUE] * LEDGER_SLOT_WORDS + LEDGER_SLOT_SOURCE] != c->source)
        return "a row added with another source than it was offered with";
    bool evicted = head[LEDGER_EVICTED] != given[LEDGER_EVICTED];
    return evicted && answer[LEDGER_VALUE] != victim_of(given, c->given[SLOTS].at) ? "another row evicted" : NULL;
}

static const char *after_candidates(const struct call *c)
{
    const uint64_t *found = c->lent[FOUND], *answer = c->lent[ANSWER];
    uint64_t count = answer[LEDGER_CASE] == LEDGER_STOPPED ? 0 : answer[LEDGER_VALUE];
    if (count > c->lent[HEAD][LEDGER_ROWS] || !zero(found + count, c->given[FOUND].length - count))
        return "words after the positions found";
    for (uint64_t i = 0; i < count; i++)
        if (found[i] >= c->lent[HEAD][LEDGER_ROWS] || (i > 0 && found[i - 1] >= found[i]))
            return "the positions do not ascend";
    return NULL;
}

/* ---- The contradicted output that Deduce and Close name: document 02, Six */

/* The output is the row's and contradicted in one region, and no lesser one is contradicted in the other. */
static bool names(const struct row *row, uint64_t output, const struct words *in, const struct words *none_in)
{
    bool found = false;
    for (size_t i = 0; i < row->outputs; i++) {
        uint64_t code = row->output[i];
        if (code < output && marked(&none_in[0], &none_in[1], code ^ 1))
            return false;
        found = found || (code == output && marked(&in[0], &in[1], code ^ 1));
    }
    return found;
}

/* The position's row is read from the slot's words. */
static const char *after_deduce(const struct call *c)
{
    struct row row;
    const struct words region[] = {c->given[HELD], c->given[CUT]};
    if (c->lent[ANSWER][LEDGER_CASE] != LEDGER_REQUIRE)
        return NULL;
    if (!row_read(c->given[SLOTS].at + c->position * LEDGER_SLOT_WORDS, &row))
        return "no row at the position";
    return names(&row, c->lent[ANSWER][LEDGER_CONTRADICTED], region, region) ? NULL : "not the least contradicted output";
}

/* The row can have required something in this closing: all its conditions are marked after it but one, whose opposite is, and was not
 * before. */
static bool has_required(const struct row *row, const struct words *before, const struct words *after)
{
    size_t against = 0;
    for (size_t i = 0; i < row->conditions; i++) {
        uint64_t code = row->condition[i], opposite = code ^ 1;
        if (marked(&after[0], &after[1], opposite) && !marked(&before[0], &before[1], opposite))
            against++;
        else if (!marked(&after[0], &after[1], code))
            return false;
    }
    return against == 1;
}

/* Some row can have named the output. What is contradicted before stays so, so of its lesser outputs none was. */
static const char *after_naming(const struct call *c)
{
    struct row row;
    const struct words before[] = {c->given[HELD], c->given[CUT]}, after[] = {lent(c, HELD), lent(c, CUT)};
    const uint64_t *slot = c->given[SLOTS].at, *answer = c->lent[ANSWER];
    if (answer[LEDGER_VALUE] != LEDGER_NAMED)
        return answer[LEDGER_VALUE] == LEDGER_NONE && answer[LEDGER_CONTRADICTED] == 0 ? NULL : "no output, and a word of one";
    for (uint64_t p = 0; p < c->given[HEAD].at[LEDGER_ROWS]; p++, slot += LEDGER_SLOT_WORDS)
        if (row_read(slot, &row) && has_required(&row, before, after) && names(&row, answer[LEDGER_CONTRADICTED], after, before))
            return NULL;
    return "an output that no row can have named";
}

static const char *after_close(const struct call *c)
{
    struct words held = lent(c, HELD), cut = lent(c, CUT);
    uint64_t lost = 0;
    for (size_t i = 0; i < held.length; i++)
        lost |= (c->given[HELD].at[i] & ~held.at[i]) | (c->given[CUT].at[i] & ~cut.at[i]);
    if (lost != 0 || !region_fits(c->given[HEAD].at[LEDGER_ATOMS], &held, &cut))
        return "not a region that contains the given one";
    if (!zero(c->lent[FOUND], c->given[FOUND].length) || !zero(c->lent[ATOMS], c->given[ATOMS].length))
        return "scratch is not zero";
    if (c->lent[HEAD][LEDGER_FULL] != 0)
        return "full";
    return only_hits(c) ? after_naming(c) : "more than hits changed";
}

static const char *after_next_output(const struct call *c)
{
    struct row row;
    bool read = row_read(c->given[SLOTS].at + c->position * LEDGER_SLOT_WORDS, &row);
    return read && cursor_fits(&row, c->lent[CURSOR]) ? NULL : "a cursor that is not of the row";
}

/* ---- Transfers */

/* The outputs of one row are among those of another with the same conditions. */
static bool joined_in(const uint64_t *slot, const struct row *row)
{
    struct row other;
    size_t n = 0;
    if (!row_read(slot, &other) || other.conditions != row->conditions || !same(other.condition, row->condition, row->conditions))
        return false;
    for (size_t i = 0; i < row->outputs; i++)
        n += n < other.outputs && other.output[n] == row->output[i];
    return n == other.outputs;
}

/* Some row of the giver has this one's source and conditions, and outputs among its own. */
static bool given_by(const uint64_t *head, const uint64_t *slots, const uint64_t *slot)
{
    struct row row;
    bool found = !row_read(slot, &row);
    for (uint64_t p = 0; p < head[LEDGER_ROWS] && !found; p++, slots += LEDGER_SLOT_WORDS)
        found = slots[LEDGER_SLOT_SOURCE] == slot[LEDGER_SLOT_SOURCE] && joined_in(slots, &row);
    return found;
}

/* Each row that is new in the receiver comes from a row of the giver, with its source. */
static bool handed_on(const struct call *c, int head, int slots, int from_head, int from_slots)
{
    const uint64_t *slot = c->lent[slots];
    for (uint64_t p = 0; p < c->lent[head][LEDGER_ROWS]; p++, slot += LEDGER_SLOT_WORDS)
        if (slot[BORN] > c->given[head].at[LEDGER_BORN] && !given_by(c->given[from_head].at, c->given[from_slots].at, slot))
            return false;
    return true;
}

/* Of the tier's rows nothing but what is not shared, and whether it is delivered, may be other words. */
static bool only_delivered(const struct call *c)
{
    const uint64_t *now = c->lent[SLOTS], *before = c->given[SLOTS].at;
    for (uint64_t p = 0; p < c->given[HEAD].at[LEDGER_TIER_ROWS]; p++, now += LEDGER_SLOT_WORDS, before += LEDGER_SLOT_WORDS)
        if (!same(now, before, UNSHARED) || now[BORN] != before[BORN] ||
            !same(now + DELIVERED + 1, before + DELIVERED + 1, LEDGER_SLOT_WORDS - DELIVERED - 1))
            return false;
    return true;
}

static const char *after_seed(const struct call *c)
{
    if (changed(c, STORE_HEAD) & ~BIT(LEDGER_SEEDED))
        return "the store's header";
    if (!handed_on(c, HEAD, SLOTS, STORE_HEAD, STORE_SLOTS))
        return "a row seeded from none, or with another source";
    return c->given[HEAD].at[LEDGER_SHARING] - c->lent[HEAD][LEDGER_SHARING] > c->lent[ANSWER][LEDGER_TICKS] ? "more paid than ticked" : NULL;
}

static const char *after_deliver(const struct call *c)
{
    if (changed(c, STORE_HEAD) & ~(RECEIVED | BIT(LEDGER_DELIVERIES)))
        return "the store's header";
    if (!only_delivered(c))
        return "more of the tier's rows changed than what is shared";
    if (!handed_on(c, STORE_HEAD, STORE_SLOTS, HEAD, SLOTS))
        return "a row delivered from none, or with another source";
    if (c->given[HEAD].at[LEDGER_SHARING] - c->lent[HEAD][LEDGER_SHARING] > c->lent[ANSWER][LEDGER_TICKS])
        return "more paid than ticked";
    return comes_back(c, STORE_HEAD, STORE_SLOTS, STORE_POSTINGS) ? NULL : "the store is not accepted again";
}

static const char *after(const struct call *c)
{
    switch (c->operation) {
    case MAKE: return after_make(c);
    case HIT: return one_hit(c) ? NULL : "not one hit";
    case BEGIN: return c->lent[HEAD][LEDGER_FULL] == 1 ? NULL : "not full";
    case DEDUCE: return after_deduce(c);
    case NEXT_OUTPUT: return after_next_output(c);
    case DECIDE: return after_decide(c);
    case OFFER: return after_offer(c);
    case CANDIDATES: return after_candidates(c);
    case CLOSE: return after_close(c);
    case SEED: return after_seed(c);
    case DELIVER: return after_deliver(c);
    default: return NULL;
    }
}

/* ---- All of them */
static const char *meter_fault(const struct call *c)
{
    const uint64_t *before = c->given[METER].at, *meter = c->lent[METER];
    if (meter[LEDGER_LIMIT] != before[LEDGER_LIMIT])
        return "the meter's limit changed";
    if (meter[LEDGER_CHARGED] < before[LEDGER_CHARGED] || meter[LEDGER_CHARGED] - before[LEDGER_CHARGED] != c->lent[ANSWER][LEDGER_TICKS])
        return "ticks that are not those charged";
    if (meter[LEDGER_CHARGED] > meter[LEDGER_LIMIT] && meter[LEDGER_CHARGED] != before[LEDGER_CHARGED])
        return "charged beyond the limit";
    if (c->lent[ANSWER][LEDGER_CASE] == LEDGER_STOPPED && meter[LEDGER_CHARGED] < meter[LEDGER_LIMIT])
        return "stopped before the limit";
    return NULL;
}

static const char *answer_fault(const struct call *c)
{
    const struct operation *o = &operations[c->operation];
    const uint64_t *answer = c->lent[ANSWER];
    if (answer[LEDGER_CASE] > 5 || !(o->cases & BIT(answer[LEDGER_CASE])))
        return "a case that the operation does not have";
    if (answer[LEDGER_VALUE] != 0 && !(o->valued & BIT(answer[LEDGER_CASE])))
        return "a value where there is none";
    if (answer[LEDGER_CONTRADICTED] != 0 && !(o->naming & BIT(answer[LEDGER_CASE])))
        return "an output named where there is none";
    if (o->lends & BIT(METER))
        return meter_fault(c);
    return answer[LEDGER_TICKS] == 0 ? NULL : "ticks without a meter";
}

static const char *ledger_fault(const struct call *c)
{
    if (c->operation == DECIDE)
        return NULL;
    if (c->operation != MAKE && operations[c->operation].writes & BIT(HEAD) && changed(c, HEAD) & ~may_change(c->operation))
        return "a word of the header that the call may not change";
    return comes_back(c, HEAD, SLOTS, POSTINGS) ? NULL : "the ledger is not accepted again";
}

const char *fault_of(const struct call *c, uint64_t result)
{
    if (!margins_kept(c))
        return "a word beside a lent buffer is changed";
    if (result > 11 || (result != 0 && !(operations[c->operation].refusals & BIT(result))))
        return "a result that the operation does not have";
    if (result != 0 && !all_kept(c, ~0u))
        return "refused, and a word changed";
    if (result != refusal_of(c))
        return "another refusal than the documents ask for";
    if (result != 0)
        return NULL;
    if (!all_kept(c, ~operations[c->operation].writes))
        return "a word that the call may not write is changed";
    const char *fault = answer_fault(c);
    fault = fault ? fault : after(c);
    return fault ? fault : ledger_fault(c);
}

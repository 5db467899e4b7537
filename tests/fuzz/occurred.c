/* What occurred, and what must for a run to count: every refusal and every case of every function, and the shapes below. */
#include "fuzz.h"
#include <inttypes.h>
#include <stdio.h>

enum shape {
    BY_POSTINGS, REBUILT, HALF_REBUILT, EVICTED, REPLACED, SATURATED, LARGE, LOADED, PAST_LIMIT, ALL_SEEDED, MARK_MET, DELIVERED_NEW,
    REQUIRED_SCALAR, REQUIRED_PACKED, NAMED_CLOSED, NAMED_CONFLICT, NAMED_STOPPED,
    TIP_ADDED, TIP_TAKEN_IN, FOUNDED_TAKEN_IN, TIP_KEPT, TIP_EVICTED, FOUNDED_EVICTED, SHUT_FULL, OPEN_FULL, TIP_SEEDED, TIP_DELIVERED, NO_PLACE,
    THIRD_SOURCE, UNUSED_SOURCE, OTHER_COUNT, LOW_SOURCE,
    HALF_ACCEPTED, OVER_HALF, MOST_ACCEPTED, READ_SCALAR, READ_PACKED, CLOSED_FAR, SEARCHED_FAR, BEYOND, REGION_BEYOND, LOW_16, LOW_32,
    SHAPES
};
static const char *const shape_names[SHAPES] = {
    [BY_POSTINGS] = "a search by postings",
    [REBUILT] = "postings rebuilt",
    [HALF_REBUILT] = "a rebuild that was stopped",
    [EVICTED] = "an eviction",
    [REPLACED] = "rows replaced by fewer",
    [SATURATED] = "a row added with born at 2^64 - 1",
    [LARGE] = "4,096 rows, accepted",
    [LOADED] = "a cursor with bits of a group",
    [PAST_LIMIT] = "a meter past its limit",
    [ALL_SEEDED] = "a whole seeding that adds rows",
    [MARK_MET] = "a seeding from a store that the mark names",
    [DELIVERED_NEW] = "a delivery that adds rows",
    [REQUIRED_SCALAR] = "a Require of a scalar row",
    [REQUIRED_PACKED] = "a Require of a packed row",
    [NAMED_CLOSED] = "a whole closing that names an output",
    [NAMED_CONFLICT] = "a Conflict after a Require",
    [NAMED_STOPPED] = "a closing stopped after a Require",
    [TIP_ADDED] = "a Tip added",
    [TIP_TAKEN_IN] = "a Founded row that takes in Tips",
    [FOUNDED_TAKEN_IN] = "a Tip that takes in Founded rows",
    [TIP_KEPT] = "a Founded row that a Tip subsumes",
    [TIP_EVICTED] = "a Tip evicted beside Founded rows that the floor protects",
    [FOUNDED_EVICTED] = "a Founded row evicted beside a Tip",
    [SHUT_FULL] = "Shut for want of a Tip alone",
    [OPEN_FULL] = "a row added to a full ledger of Tips, with a floor as high",
    [TIP_SEEDED] = "a seeding that adds a Tip",
    [TIP_DELIVERED] = "a delivery that adds a Tip",
    [NO_PLACE] = "a seeding that ends for want of a Tip",
    [THIRD_SOURCE] = "refused by 3 for a source alone",
    [UNUSED_SOURCE] = "refused by 3 for a source in an unused slot alone",
    [OTHER_COUNT] = "refused by 3 for the count of Founded rows alone",
    [LOW_SOURCE] = "refused by 11 for a source that is one in its low 32 bits",
    [HALF_ACCEPTED] = "32,768 atoms, accepted",
    [OVER_HALF] = "32,769 atoms, accepted",
    [MOST_ACCEPTED] = "1,048,576 atoms, accepted",
    [READ_SCALAR] = "a scalar row read, with atoms on both sides of 32,768",
    [READ_PACKED] = "a packed row read, with atoms on both sides of 32,768",
    [CLOSED_FAR] = "a closing that marks an atom at 32,768 or above",
    [SEARCHED_FAR] = "a search by postings for an atom at 32,768 or above",
    [BEYOND] = "limits of 1,048,577 atoms, refused by 1",
    [REGION_BEYOND] = "words for 1,048,577 atoms, refused by 6",
    [LOW_16] = "an offer refused by 4 that is a row in the low 16 bits",
    [LOW_32] = "an offer refused by 4 that is a row in the low 32 bits",
};
enum { RESULTS = 12 };
static uint64_t results[OPERATIONS][RESULTS], cases[OPERATIONS][6], shapes[SHAPES];

static bool grew(const struct call *c, int head, int word) { return c->lent[head][word] > c->given[head].at[word]; }

/* Shapes of a ledger that received a row. */
static void received(const struct call *c, int head)
{
    const uint64_t *before = c->given[head].at, *now = c->lent[head];
    shapes[EVICTED] += grew(c, head, LEDGER_EVICTED);
    shapes[REPLACED] += now[LEDGER_ROWS] < before[LEDGER_ROWS];
    shapes[SATURATED] += before[LEDGER_BORN] == UINT64_MAX && now[LEDGER_EPOCH] != before[LEDGER_EPOCH];
}

static void transferred(const struct call *c)
{
    const uint64_t *before = c->given[HEAD].at, *given_store = c->given[STORE_HEAD].at;
    bool named = before[LEDGER_MARKED] != 0 && before[LEDGER_MARK_NUMBER] == given_store[LEDGER_NUMBER];
    received(c, c->operation == SEED ? HEAD : STORE_HEAD);
    shapes[ALL_SEEDED] += c->operation == SEED && grew(c, STORE_HEAD, LEDGER_SEEDED) && c->lent[HEAD][LEDGER_MARKED] == 1 &&
                          c->lent[HEAD][LEDGER_MARK_BORN] == given_store[LEDGER_BORN];
    shapes[MARK_MET] += c->operation == SEED && named && before[LEDGER_MARK_BORN] > 0 && given_store[LEDGER_ROWS] > 0;
    shapes[DELIVERED_NEW] += c->operation == DELIVER && grew(c, STORE_HEAD, LEDGER_DELIVERIES);
}

static void searched(const struct call *c)
{
    const uint64_t *before = c->given[HEAD].at, *now = c->lent[HEAD];
    bool stopped = c->lent[ANSWER][LEDGER_CASE] == LEDGER_STOPPED;
    shapes[BY_POSTINGS] += before[LEDGER_ROWS] > 64 && before[LEDGER_FULL] == 0 && !stopped;
    shapes[REBUILT] += before[LEDGER_STALE] != 0 && now[LEDGER_STALE] == 0;
    shapes[HALF_REBUILT] += before[LEDGER_STALE] != 0 && now[LEDGER_STALE] != 0 && stopped && c->lent[ANSWER][LEDGER_TICKS] > 0;
}

static void required(const struct call *c)
{
    struct row row;
    bool read = row_read(c->given[SLOTS].at + c->position * LEDGER_SLOT_WORDS, &row);
    if (read && c->lent[ANSWER][LEDGER_CASE] == LEDGER_REQUIRE)
        shapes[row_packed(&row) ? REQUIRED_PACKED : REQUIRED_SCALAR]++;
}

static void closed(const struct call *c)
{
    const enum shape named[] = {[LEDGER_CLOSED] = NAMED_CLOSED, [LEDGER_CONFLICT] = NAMED_CONFLICT, [LEDGER_STOPPED] = NAMED_STOPPED};
    if (c->lent[ANSWER][LEDGER_VALUE] == LEDGER_NAMED)
        shapes[named[c->lent[ANSWER][LEDGER_CASE]]]++;
}

/* ---- Shapes of sources */
static uint64_t tips(const uint64_t *head) { return head[LEDGER_ROWS] - head[LEDGER_FOUNDED]; }
static bool at_floor(const uint64_t *head) { return head[LEDGER_FOUNDED] <= head[LEDGER_FOUNDED_FLOOR]; }
static const uint64_t *slot_at(const uint64_t *slots, uint64_t position) { return slots + position * LEDGER_SLOT_WORDS; }

static void added(const struct call *c)
{
    const uint64_t *before = c->given[HEAD].at, *now = c->lent[HEAD];
    uint64_t position = c->lent[ANSWER][LEDGER_VALUE];
    bool tip = c->source == LEDGER_SOURCE_TIP, evicts = grew(c, HEAD, LEDGER_EVICTED);
    bool was_tip = position < before[LEDGER_ROWS] && slot_at(c->given[SLOTS].at, position)[LEDGER_SLOT_SOURCE] == LEDGER_SOURCE_TIP;
    shapes[TIP_ADDED] += tip;
    shapes[TIP_TAKEN_IN] += !tip && !evicts && tips(now) < tips(before);
    shapes[FOUNDED_TAKEN_IN] += tip && !evicts && now[LEDGER_FOUNDED] < before[LEDGER_FOUNDED];
    shapes[TIP_EVICTED] += evicts && was_tip && at_floor(before) && before[LEDGER_FOUNDED] > 0;
    shapes[FOUNDED_EVICTED] += evicts && !was_tip && tips(before) > 0;
    shapes[OPEN_FULL] += evicts && before[LEDGER_FOUNDED] == 0 && before[LEDGER_FOUNDED_FLOOR] >= before[LEDGER_ROWS];
}

static void offered(const struct call *c)
{
    const uint64_t *before = c->given[HEAD].at, *answer = c->lent[ANSWER];
    received(c, HEAD);
    if (answer[LEDGER_CASE] == LEDGER_ADDED)
        added(c);
    shapes[SHUT_FULL] += answer[LEDGER_CASE] == LEDGER_SHUT && before[LEDGER_ATTEMPTS] < before[LEDGER_FOUNDED_ATTEMPTS] && before[LEDGER_REMAINING] > 0;
    shapes[TIP_KEPT] += answer[LEDGER_CASE] == LEDGER_SUBSUMED && c->source == LEDGER_SOURCE_FOUNDED &&
                        slot_at(c->lent[SLOTS], answer[LEDGER_VALUE])[LEDGER_SLOT_SOURCE] == LEDGER_SOURCE_TIP;
}

/* A full tier with no Tip that takes nothing, though neither its account nor the meter is used up. */
static bool without_place(const struct call *c)
{
    const uint64_t *before = c->given[HEAD].at, *now = c->lent[HEAD], *store = c->given[STORE_HEAD].at;
    bool whole = now[LEDGER_MARKED] != 0 && now[LEDGER_MARK_NUMBER] == store[LEDGER_NUMBER] && now[LEDGER_MARK_BORN] == store[LEDGER_BORN];
    return before[LEDGER_ROWS] == before[LEDGER_TIER_ROWS] && tips(before) == 0 && at_floor(before) && !whole &&
           now[LEDGER_BORN] == before[LEDGER_BORN] && now[LEDGER_SHARING] > 0 && c->lent[ANSWER][LEDGER_CASE] == LEDGER_DONE;
}

static void transferred_tips(const struct call *c)
{
    int head = c->operation == SEED ? HEAD : STORE_HEAD;
    bool more = tips(c->lent[head]) > tips(c->given[head].at);
    shapes[TIP_SEEDED] += c->operation == SEED && more;
    shapes[TIP_DELIVERED] += c->operation == DELIVER && more;
    shapes[NO_PLACE] += c->operation == SEED && without_place(c);
}

/* By 3: sources, or the count of them, may be all that is wrong with the ledger; then it is a ledger with others. */
static void refused_sources(const struct call *c)
{
    static struct words head, slots;
    bool third = false, unused = false;
    words_copy(&head, &c->given[HEAD]);
    words_copy(&slots, &c->given[SLOTS]);
    if (head.at[LEDGER_ROWS] > head.at[LEDGER_TIER_ROWS] || contents_fit(head.at, slots.at, c->given[POSTINGS].at))
        return;
    head.at[LEDGER_FOUNDED] = 0;
    for (uint64_t p = 0; p < head.at[LEDGER_TIER_ROWS]; p++) {
        uint64_t *source = slots.at + p * LEDGER_SLOT_WORDS + LEDGER_SLOT_SOURCE;
        bool used = p < head.at[LEDGER_ROWS];
        third = third || (used && *source > LEDGER_SOURCE_TIP);
        unused = unused || (!used && *source != 0);
        *source = used && *source == LEDGER_SOURCE_TIP ? LEDGER_SOURCE_TIP : LEDGER_SOURCE_FOUNDED;
        head.at[LEDGER_FOUNDED] += used && *source == LEDGER_SOURCE_FOUNDED;
    }
    if (contents_fit(head.at, slots.at, c->given[POSTINGS].at))
        shapes[third ? THIRD_SOURCE : unused ? UNUSED_SOURCE : OTHER_COUNT]++;
}

/* ---- Shapes of many atoms */

/* A row that is read, by its form. */
static void read_far(const struct call *c)
{
    struct row row;
    size_t far = 0;
    if (!row_read(c->given[SLOTS].at + c->position * LEDGER_SLOT_WORDS, &row))
        return;
    for (size_t i = 0; i < row.conditions + row.outputs; i++)
        far += (i < row.conditions ? row.condition[i] : row.output[i - row.conditions]) / 2 >= HALF;
    if (far > 0 && far < row.conditions + row.outputs)
        shapes[row_packed(&row) ? READ_PACKED : READ_SCALAR]++;
}

/* Whether a closing marked an atom there. */
static bool marked_far(const struct call *c)
{
    uint64_t anew = 0;
    for (size_t i = HALF / 64; i < c->given[HELD].length; i++)
        anew |= (c->lent[HELD][i] & ~c->given[HELD].at[i]) | (c->lent[CUT][i] & ~c->given[CUT].at[i]);
    return anew != 0;
}

static bool searched_far(const struct call *c)
{
    bool far = false;
    for (size_t i = 0; i < c->given[ATOMS].length; i++)
        far = far || (c->given[ATOMS].at[i] >= HALF && c->given[ATOMS].at[i] < c->given[HEAD].at[LEDGER_ATOMS]);
    return far && c->given[HEAD].at[LEDGER_ROWS] > 64 && c->given[HEAD].at[LEDGER_FULL] == 0;
}

/* A call that was not refused. */
static void accepted_far(const struct call *c)
{
    uint64_t atoms = c->operation == DECIDE ? c->region_atoms : c->operation == MAKE ? c->given[LIMITS].at[LEDGER_ATOMS] : c->given[HEAD].at[LEDGER_ATOMS];
    shapes[HALF_ACCEPTED] += atoms == HALF;
    shapes[OVER_HALF] += atoms == HALF + 1;
    shapes[MOST_ACCEPTED] += atoms == MOST_ATOMS;
    if (c->operation == DEDUCE || c->operation == NEXT_OUTPUT)
        read_far(c);
    shapes[CLOSED_FAR] += c->operation == CLOSE && marked_far(c);
    shapes[SEARCHED_FAR] += c->operation == CANDIDATES && searched_far(c);
}

/* The offer would not be refused if no more than the low bits of its codes counted. */
static bool fits_below(const struct call *c, uint64_t end)
{
    struct call low = *c;
    uint64_t codes[MOST_CONDITIONS + MOST_OUTPUTS], *at = codes;
    if (c->given[CONDITIONS].length > MOST_CONDITIONS || c->given[OUTPUTS].length > MOST_OUTPUTS)
        return false;
    for (int b = CONDITIONS; b <= OUTPUTS; b++) {
        low.given[b].at = at;
        for (size_t i = 0; i < c->given[b].length; i++)
            *at++ = c->given[b].at[i] % end;
    }
    return refusal_of(&low) == 0;
}

static void refused_far(const struct call *c, uint64_t result)
{
    shapes[BEYOND] += result == 1 && c->operation == MAKE && c->given[LIMITS].at[LEDGER_ATOMS] == MOST_ATOMS + 1;
    shapes[REGION_BEYOND] += c->operation == DECIDE && c->region_atoms == MOST_ATOMS + 1 && c->given[HELD].length == MOST_ATOMS / 64 + 1;
    if (result != 4)
        return;
    shapes[LOW_16] += fits_below(c, SPAN);
    shapes[LOW_32] += fits_below(c, UINT64_C(1) << 32);
}

void occurred(const struct call *c, uint64_t result)
{
    results[c->operation][result]++;
    if (result != 0) {
        refused_far(c, result);
        if (result == 3)
            refused_sources(c);
        shapes[LOW_SOURCE] += result == 11 && c->source % (UINT64_C(1) << 32) <= LEDGER_SOURCE_TIP;
        return;
    }
    accepted_far(c);
    cases[c->operation][c->lent[ANSWER][LEDGER_CASE]]++;
    shapes[LARGE] += c->operation != DECIDE && c->operation != MAKE && c->given[HEAD].at[LEDGER_ROWS] == MOST_ROWS;
    shapes[LOADED] += c->operation == NEXT_OUTPUT && (c->lent[CURSOR][LEDGER_PRESENT] | c->lent[CURSOR][LEDGER_ABSENT]) != 0;
    shapes[PAST_LIMIT] += operations[c->operation].lends & BIT(METER) && c->given[METER].at[LEDGER_CHARGED] > c->given[METER].at[LEDGER_LIMIT];
    if (c->operation == OFFER)
        offered(c);
    if (c->operation == CANDIDATES)
        searched(c);
    if (c->operation == DEDUCE)
        required(c);
    if (c->operation == CLOSE)
        closed(c);
    if (c->operation == SEED || c->operation == DELIVER) {
        transferred(c);
        transferred_tips(c);
    }
}

static uint64_t show(const char *name, const char *what, const uint64_t *counts, int length, unsigned must)
{
    uint64_t missing = 0;
    printf("%-12s %-8s", name, what);
    for (int i = 0; i < length; i++) {
        if (must & BIT(i))
            printf(" %8" PRIu64, counts[i]);
        else
            printf(" %8s", "-");
        missing += (must & BIT(i)) && counts[i] == 0;
    }
    puts("");
    return missing;
}

static uint64_t show_shapes(void)
{
    uint64_t missing = 0;
    for (int i = 0; i < SHAPES; i++) {
        printf("%9" PRIu64 "  %s\n", shapes[i], shape_names[i]);
        missing += shapes[i] == 0;
    }
    return missing;
}

uint64_t show_occurred(void)
{
    uint64_t missing = 0;
    printf("%-21s", "");
    for (int i = 0; i < RESULTS; i++)
        printf(" %8d", i);
    puts("");
    for (int o = 0; o < OPERATIONS; o++) {
        missing += show(operations[o].name, "results", results[o], RESULTS, operations[o].refusals | BIT(0));
        missing += show("", "cases", cases[o], 6, operations[o].cases);
    }
    missing += show_shapes();
    if (missing > 0)
        printf("%" PRIu64 " of them never occurred\n", missing);
    return missing;
}

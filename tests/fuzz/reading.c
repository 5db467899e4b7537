/* The documents as this test reads them: the records of 01 with 02's sources, which refusal a call is owed, when a ledger is shut, and which
 * row it gives up. No code of the library is called here. */
#include "fuzz.h"
#include <stdlib.h>
#include <string.h>

enum { CONDITION_COUNT, OUTPUT_COUNT, TOTAL_GROUPS, CONDITION_GROUPS, HITS, UNSHARED, BORN, DELIVERED, BODY, SOURCE = 168 };

/* ---- Rows and slots */

/* Neighbours whose atoms lie in one word. */
size_t groups_of(const uint64_t *codes, size_t length, struct group *groups)
{
    size_t n = 0;
    for (size_t i = 0; i < length; i++) {
        uint64_t word = codes[i] / 128, bit = UINT64_C(1) << (codes[i] / 2 % 64);
        if (n == 0 || groups[n - 1].word != word)
            groups[n++] = (struct group){word, 0, 0};
        *(codes[i] % 2 ? &groups[n - 1].present : &groups[n - 1].absent) |= bit;
    }
    return n;
}

static size_t all_groups(const struct row *row, struct group *groups, size_t *of_conditions)
{
    *of_conditions = groups_of(row->condition, row->conditions, groups);
    return *of_conditions + groups_of(row->output, row->outputs, groups + *of_conditions);
}

bool row_packed(const struct row *row)
{
    struct group groups[MOST_CONDITIONS + MOST_OUTPUTS];
    size_t first, total = all_groups(row, groups, &first);
    return 3 * total < 2 * (row->conditions + row->outputs);
}

void row_write(const struct row *row, uint64_t *slot)
{
    struct group groups[MOST_CONDITIONS + MOST_OUTPUTS];
    size_t first, total = all_groups(row, groups, &first);
    memset(slot + BODY, 0, (SOURCE - BODY) * sizeof(uint64_t));
    slot[CONDITION_COUNT] = row->conditions;
    slot[OUTPUT_COUNT] = row->outputs;
    if (row_packed(row)) {
        slot[TOTAL_GROUPS] = total;
        slot[CONDITION_GROUPS] = first;
        memcpy(slot + BODY, groups, total * sizeof(struct group));
    } else {
        slot[TOTAL_GROUPS] = slot[CONDITION_GROUPS] = 0;
        memcpy(slot + BODY, row->condition, row->conditions * sizeof(uint64_t));
        memcpy(slot + BODY + row->conditions, row->output, row->outputs * sizeof(uint64_t));
    }
}

/* The codes of `count` groups, ascending; false if there are more than `most`, or a group that no atom can be in. */
static bool ungroup(const uint64_t *words, size_t count, uint64_t *codes, size_t most, size_t *length)
{
    *length = 0;
    for (size_t i = 0; i < 128 * count; i++) {
        const uint64_t *group = words + i / 128 * 3;
        uint64_t place = i % 128, bits = group[place % 2 ? 1 : 2];
        if (group[0] >= MOST_ATOMS / 64)
            return false;
        if (!(bits >> (place / 2) & 1))
            continue;
        if (*length == most)
            return false;
        codes[(*length)++] = group[0] * 128 + place;
    }
    return true;
}

/* The row whose slot these words are; false if they are no row's. Its atoms are not tested here, nor the order of its literals. */
bool row_read(const uint64_t *slot, struct row *row)
{
    uint64_t again[LEDGER_SLOT_WORDS], total = slot[TOTAL_GROUPS], first = slot[CONDITION_GROUPS];
    if (slot[CONDITION_COUNT] > MOST_CONDITIONS || slot[OUTPUT_COUNT] > MOST_OUTPUTS || total > MOST_GROUPS || first > total)
        return false;
    if (total == 0) {
        row->conditions = slot[CONDITION_COUNT];
        row->outputs = slot[OUTPUT_COUNT];
        memcpy(row->condition, slot + BODY, row->conditions * sizeof(uint64_t));
        memcpy(row->output, slot + BODY + row->conditions, row->outputs * sizeof(uint64_t));
    } else if (!ungroup(slot + BODY, first, row->condition, MOST_CONDITIONS, &row->conditions) ||
               !ungroup(slot + BODY + 3 * first, total - first, row->output, MOST_OUTPUTS, &row->outputs)) {
        return false;
    }
    memcpy(again, slot, sizeof again);
    row_write(row, again);
    return slot[DELIVERED] <= 1 && slot[SOURCE] <= 1 && memcmp(again, slot, sizeof again) == 0;
}

/* Codes below 2 * atoms, strictly ascending after division by `unit`: 2 for conditions (atoms ascend), 1 for outputs. */
static bool ascend(const uint64_t *codes, size_t length, uint64_t unit, uint64_t atoms)
{
    for (size_t i = 0; i < length; i++)
        if (codes[i] >= 2 * atoms || (i > 0 && codes[i - 1] / unit >= codes[i] / unit))
            return false;
    return true;
}

static bool row_over(const struct row *row, uint64_t atoms)
{
    return ascend(row->condition, row->conditions, 2, atoms) && ascend(row->output, row->outputs, 1, atoms);
}

/* ---- Postings */
static int compare(const void *a, const void *b)
{
    uint64_t x = *(const uint64_t *)a, y = *(const uint64_t *)b;
    return x < y ? -1 : x > y;
}

/* One posting for each condition atom, and one for each output atom. */
static size_t post(const struct row *row, uint64_t position, uint64_t *to)
{
    size_t n = 0;
    for (size_t i = 0; i < row->conditions + row->outputs; i++) {
        const uint64_t *code = i < row->conditions ? row->condition + i : row->output + (i - row->conditions);
        if (i > row->conditions && code[0] / 2 == code[-1] / 2)
            continue;
        to[n++] = *code / 2 * MOST_ROWS + position;
    }
    return n;
}

/* The postings of an accepted ledger's rows, ascending, then zeros. */
void postings_write(const uint64_t *head, const uint64_t *slots, struct words *postings)
{
    struct row row;
    size_t n = 0;
    words_resize(postings, 0);
    words_resize(postings, LEDGER_POSTING_WORDS * head[LEDGER_TIER_ROWS]);
    for (uint64_t p = 0; p < head[LEDGER_ROWS] && !head[LEDGER_STALE]; p++)
        if (row_read(slots + p * LEDGER_SLOT_WORDS, &row))
            n += post(&row, p, postings->at + n);
    qsort(postings->at, n, sizeof(uint64_t), compare);
}

/* ---- Refusals */
static bool limits_fit(const uint64_t *limits)
{
    return limits[LEDGER_ATOMS] >= 1 && limits[LEDGER_ATOMS] <= MOST_ATOMS && limits[LEDGER_TIER_ROWS] >= 1 &&
           limits[LEDGER_TIER_ROWS] <= MOST_ROWS && limits[LEDGER_FOUNDED_CONDITIONS] <= MOST_CONDITIONS &&
           limits[LEDGER_FOUNDED_OUTPUTS] <= MOST_OUTPUTS;
}

static bool lengths_fit(const uint64_t *limits, size_t slots, size_t postings)
{
    return slots == LEDGER_SLOT_WORDS * limits[LEDGER_TIER_ROWS] && postings == LEDGER_POSTING_WORDS * limits[LEDGER_TIER_ROWS];
}

static bool slot_fits(const uint64_t *head, const uint64_t *slot)
{
    struct row row;
    return row_read(slot, &row) && row_over(&row, head[LEDGER_ATOMS]) && slot[BORN] >= 1 && slot[BORN] <= head[LEDGER_BORN];
}

/* The slots up to `rows` are rows, as many of them Founded as the header counts; the others are zero. */
static bool slots_fit(const uint64_t *head, const uint64_t *slots)
{
    static const uint64_t none[LEDGER_SLOT_WORDS];
    uint64_t founded = 0;
    for (uint64_t p = 0; p < head[LEDGER_TIER_ROWS]; p++, slots += LEDGER_SLOT_WORDS) {
        if (p < head[LEDGER_ROWS] ? !slot_fits(head, slots) : memcmp(slots, none, sizeof none) != 0)
            return false;
        founded += p < head[LEDGER_ROWS] && slots[SOURCE] == LEDGER_SOURCE_FOUNDED;
    }
    return founded == head[LEDGER_FOUNDED];
}

/* Limits and lengths are fit. */
bool contents_fit(const uint64_t *head, const uint64_t *slots, const uint64_t *postings)
{
    static struct words built;
    if (head[LEDGER_ROWS] > head[LEDGER_TIER_ROWS] || head[LEDGER_EPOCH] >= head[LEDGER_TIER_ROWS] ||
        head[LEDGER_ATTEMPTS] > head[LEDGER_FOUNDED_ATTEMPTS] || !slots_fit(head, slots))
        return false;
    postings_write(head, slots, &built);
    return memcmp(built.at, postings, built.length * sizeof(uint64_t)) == 0;
}

static uint64_t ledger_refusal(const struct words *head, const struct words *slots, const struct words *postings, bool others)
{
    if (!limits_fit(head->at))
        return 1;
    if (!lengths_fit(head->at, slots->length, postings->length) || !others)
        return 2;
    return contents_fit(head->at, slots->at, postings->at) ? 0 : 3;
}

bool region_fits(uint64_t atoms, const struct words *held, const struct words *cut)
{
    if (atoms < 1 || atoms > MOST_ATOMS || held->length != (atoms + 63) / 64 || cut->length != held->length)
        return false;
    uint64_t common = 0;
    for (size_t i = 0; i < held->length; i++)
        common |= held->at[i] & cut->at[i];
    uint64_t last = held->at[held->length - 1] | cut->at[held->length - 1];
    return common == 0 && (atoms % 64 == 0 || last >> (atoms % 64) == 0);
}

bool marked(const struct words *held, const struct words *cut, uint64_t code)
{
    return (code % 2 ? held : cut)->at[code / 128] >> (code / 2 % 64) & 1;
}

bool cursor_fits(const struct row *row, const uint64_t *cursor)
{
    struct group groups[MOST_OUTPUTS];
    bool unloaded = cursor[LEDGER_WORD] == 0 && cursor[LEDGER_PRESENT] == 0 && cursor[LEDGER_ABSENT] == 0;
    if (!row_packed(row))
        return cursor[LEDGER_NEXT] <= row->outputs && unloaded;
    if (cursor[LEDGER_NEXT] > groups_of(row->output, row->outputs, groups))
        return false;
    if (cursor[LEDGER_NEXT] == 0)
        return unloaded;
    struct group last = groups[cursor[LEDGER_NEXT] - 1];
    return cursor[LEDGER_WORD] == last.word && (cursor[LEDGER_PRESENT] & ~last.present) == 0 && (cursor[LEDGER_ABSENT] & ~last.absent) == 0;
}

static bool offer_fits(const struct call *c)
{
    const uint64_t *head = c->given[HEAD].at;
    const struct words *conditions = &c->given[CONDITIONS], *outputs = &c->given[OUTPUTS];
    return conditions->length <= head[LEDGER_FOUNDED_CONDITIONS] && outputs->length <= head[LEDGER_FOUNDED_OUTPUTS] &&
           ascend(conditions->at, conditions->length, 2, head[LEDGER_ATOMS]) && ascend(outputs->at, outputs->length, 1, head[LEDGER_ATOMS]);
}

/* The lengths of what a call is lent beside a ledger, as far as they belong to 2. */
static bool others_fit(const struct call *c)
{
    const uint64_t *head = c->given[HEAD].at;
    if (c->operation == CANDIDATES)
        return c->given[FOUND].length == head[LEDGER_TIER_ROWS];
    if (c->operation == CLOSE)
        return c->given[FOUND].length == head[LEDGER_TIER_ROWS] && c->given[ATOMS].length == head[LEDGER_ATOMS];
    return true;
}

/* 4 to 11, of a call whose ledger is accepted. */
static uint64_t later_refusal(const struct call *c)
{
    const uint64_t *head = c->given[HEAD].at;
    unsigned can = operations[c->operation].refusals;
    struct row row;
    if (can & BIT(4) && !offer_fits(c))
        return 4;
    if (can & BIT(11) && c->source != LEDGER_SOURCE_FOUNDED && c->source != LEDGER_SOURCE_TIP)
        return 11;
    if (can & BIT(5) && c->position >= head[LEDGER_ROWS])
        return 5;
    if (can & BIT(6) && !region_fits(head[LEDGER_ATOMS], &c->given[HELD], &c->given[CUT]))
        return 6;
    if (can & BIT(8) && !(row_read(c->given[SLOTS].at + c->position * LEDGER_SLOT_WORDS, &row) && cursor_fits(&row, c->given[CURSOR].at)))
        return 8;
    return 0;
}

static uint64_t store_refusal(const struct call *c)
{
    uint64_t refusal = ledger_refusal(&c->given[STORE_HEAD], &c->given[STORE_SLOTS], &c->given[STORE_POSTINGS], true);
    return refusal ? refusal : c->given[HEAD].at[LEDGER_ATOMS] == c->given[STORE_HEAD].at[LEDGER_ATOMS] ? 0 : 7;
}

uint64_t refusal_of(const struct call *c)
{
    const struct words *given = c->given;
    if (c->operation == DECIDE)
        return region_fits(c->region_atoms, &given[HELD], &given[CUT]) ? 0 : 6;
    if (c->operation == MAKE)
        return !limits_fit(given[LIMITS].at) ? 1 : lengths_fit(given[LIMITS].at, given[SLOTS].length, given[POSTINGS].length) ? 0 : 2;
    uint64_t refusal = ledger_refusal(&given[HEAD], &given[SLOTS], &given[POSTINGS], others_fit(c));
    if (refusal == 0 && operations[c->operation].refusals & BIT(7))
        refusal = store_refusal(c);
    return refusal ? refusal : later_refusal(c);
}

/* ---- Retention: document 02, Eight */

/* The floor protects the Founded rows: only a Tip may be evicted. */
static bool protects(const uint64_t *head) { return head[LEDGER_FOUNDED] <= head[LEDGER_FOUNDED_FLOOR]; }

/* Attempts or reads are used up, or it is full, with no Tip and no Founded row that may go. */
bool shuts(const uint64_t *head)
{
    bool full = head[LEDGER_ROWS] >= head[LEDGER_TIER_ROWS], tips = head[LEDGER_FOUNDED] < head[LEDGER_ROWS];
    return head[LEDGER_ATTEMPTS] >= head[LEDGER_FOUNDED_ATTEMPTS] || head[LEDGER_REMAINING] == 0 || (full && !tips && protects(head));
}

/* The fewest hits, then the oldest, then the first; among the Tips where the floor protects the others. */
uint64_t victim_of(const uint64_t *head, const uint64_t *slots)
{
    const uint64_t *least = NULL;
    for (uint64_t p = 0; p < head[LEDGER_ROWS]; p++) {
        const uint64_t *slot = slots + p * LEDGER_SLOT_WORDS;
        if (protects(head) && slot[SOURCE] == LEDGER_SOURCE_FOUNDED)
            continue;
        if (least == NULL || slot[HITS] < least[HITS] || (slot[HITS] == least[HITS] && slot[BORN] < least[BORN]))
            least = slot;
    }
    return least == NULL ? head[LEDGER_ROWS] : (uint64_t)(least - slots) / LEDGER_SLOT_WORDS;
}

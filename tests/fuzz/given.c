/* What calls are given: ledgers that the documents accept, kept from call to call or written outright; rows, regions, cursors and meters
 * near them; and most of the time some damage. */
#include "fuzz.h"
#include <stdlib.h>
#include <string.h>

enum { KEPT = 32, LARGEST_KEPT = 100, HITS = 4, UNSHARED = 5, BORN = 6, DELIVERED = 7 };

struct ledger {
    struct words head, slots, postings;
};
static struct ledger kept[KEPT];
static size_t tier, store; /* which of them the last call was given; KEPT for none */

static void all_zero(struct words *w, size_t length)
{
    words_resize(w, 0);
    words_resize(w, length);
}

static void copy_ledger(struct ledger *to, const struct ledger *from)
{
    words_copy(&to->head, &from->head);
    words_copy(&to->slots, &from->slots);
    words_copy(&to->postings, &from->postings);
}

/* ---- Rows */
static int compare(const void *a, const void *b)
{
    uint64_t x = *(const uint64_t *)a, y = *(const uint64_t *)b;
    return x < y ? -1 : x > y;
}

/* Ascending codes; of those that are equal after division by `unit` the first. */
static size_t in_order(uint64_t *codes, size_t length, uint64_t unit)
{
    size_t n = 0;
    qsort(codes, length, sizeof(uint64_t), compare);
    for (size_t i = 0; i < length; i++)
        if (n == 0 || codes[n - 1] / unit != codes[i] / unit)
            codes[n++] = codes[i];
    return n;
}

/* More codes of atoms that are near each other; true to the length that is wanted only before equal ones are dropped. */
static size_t more_codes(uint64_t *codes, size_t length, size_t wanted, uint64_t atoms)
{
    uint64_t base = atoms > HALF && chance(1, 3) ? HALF - below(20) : below(atoms), span = PICK(2, 4, 40, 200, atoms);
    while (length < wanted)
        codes[length++] = 2 * ((base + below(span)) % atoms) + below(2);
    return length;
}

static size_t fewer(uint64_t wanted, uint64_t most) { return wanted < most ? wanted : most; }

static void random_row(struct row *row, uint64_t atoms, uint64_t conditions, uint64_t outputs)
{
    row->conditions = more_codes(row->condition, 0, fewer(PICK(0, 1, 1, 2, 2, 3, 5, 16), conditions), atoms);
    row->outputs = more_codes(row->output, 0, fewer(PICK(0, 1, 1, 2, 3, 8, 64), outputs), atoms);
    row->conditions = in_order(row->condition, row->conditions, 2);
    row->outputs = in_order(row->output, row->outputs, 1);
}

/* A row of the ledger with some literals less or more, so that rows include each other and join. */
static void near_row(struct row *row, const struct ledger *l, uint64_t conditions, uint64_t outputs)
{
    uint64_t atoms = l->head.at[LEDGER_ATOMS];
    if (l->head.at[LEDGER_ROWS] == 0 || !row_read(l->slots.at + below(l->head.at[LEDGER_ROWS]) * LEDGER_SLOT_WORDS, row)) {
        random_row(row, atoms, conditions, outputs);
        return;
    }
    if (chance(1, 3))
        row->conditions = more_codes(row->condition, row->conditions, fewer(row->conditions + below(3), conditions), atoms);
    if (chance(1, 2))
        row->outputs = more_codes(row->output, row->outputs, fewer(row->outputs + below(4), outputs), atoms);
    row->conditions = in_order(row->condition, fewer(row->conditions, conditions), 2);
    row->outputs = in_order(row->output, fewer(row->outputs, outputs), 1);
    if (row->conditions > 0 && chance(1, 4))
        row->conditions -= 1;
    if (row->outputs > 0 && chance(1, 4))
        row->outputs -= 1;
}

/* ---- Ledgers */

/* Few atoms mostly; else at both sides of the bounds of 16 bits or any; and seldom the most, for which a closing is lent 8 MiB. */
static uint64_t random_width(void)
{
    if (chance(1, 100))
        return PICK(MOST_ATOMS - 1, MOST_ATOMS, MOST_ATOMS, 1 + below(MOST_ATOMS));
    if (chance(1, 4))
        return PICK(HALF - 1, HALF, HALF + 1, SPAN - 1, SPAN, SPAN + 1, 200000, HALF + below(4 * SPAN));
    return PICK(1, 2, 4, 4, 63, 64, 65, 128, 128, 128, 200, 4096);
}

static void random_limits(uint64_t *limits, uint64_t tier_rows)
{
    limits[LEDGER_ATOMS] = random_width();
    limits[LEDGER_TIER_ROWS] = tier_rows;
    limits[LEDGER_FOUNDED_CONDITIONS] = PICK(0, 1, 2, 16, 16, 16, 16);
    limits[LEDGER_FOUNDED_OUTPUTS] = PICK(0, 1, 2, 3, 64, 64, 64, 64);
    limits[LEDGER_FOUNDED_FLOOR] = PICK(0, 0, 1, tier_rows - 1, tier_rows, edge());
    limits[LEDGER_FOUNDED_ATTEMPTS] = PICK(3, 256, 256, UINT64_MAX, edge());
    limits[LEDGER_FOUNDED_WORK] = PICK(40, 131072, 131072, UINT64_MAX, edge());
    limits[LEDGER_SHARE_WORK] = PICK(40, 131072, 131072, UINT64_MAX, edge());
    limits[LEDGER_SHARE_CONDITIONS] = PICK(0, 1, 8, edge());
    limits[LEDGER_SHARE_HITS] = PICK(0, 2, edge());
}

static uint64_t random_tier(void) { return chance(1, 4) ? 65 + below(16) : 1 + below(8); }

/* Limits first; then counts that are accepted with so many rows. */
static void random_head(uint64_t *head, uint64_t tier_rows)
{
    random_limits(head, tier_rows);
    head[LEDGER_NUMBER] = below(4);
    head[LEDGER_ROWS] = PICK(0, tier_rows, tier_rows, tier_rows, below(tier_rows + 1));
    head[LEDGER_BORN] = PICK(1 + below(100), 1 + below(100), UINT64_MAX - below(2), UINT64_MAX);
    head[LEDGER_EPOCH] = PICK(0, tier_rows - 1, below(tier_rows));
    head[LEDGER_ATTEMPTS] = head[LEDGER_FOUNDED_ATTEMPTS] == 0 ? 0 : below(head[LEDGER_FOUNDED_ATTEMPTS]);
    head[LEDGER_REMAINING] = PICK(head[LEDGER_FOUNDED_WORK], below(100), edge());
    head[LEDGER_SHARING] = PICK(head[LEDGER_SHARE_WORK], below(100), edge());
    for (int count = LEDGER_EVICTED; count <= LEDGER_SEEDED; count++)
        head[count] = PICK(0, below(5), UINT64_MAX - below(3));
    head[LEDGER_STALE] = PICK(0, 0, 1, edge());
    head[LEDGER_FULL] = PICK(0, 0, 1, edge());
    head[LEDGER_MARKED] = PICK(0, 1, edge());
    head[LEDGER_MARK_NUMBER] = below(4);
    head[LEDGER_MARK_BORN] = PICK(0, below(100), edge());
}

static void random_slot(uint64_t *slot, const uint64_t *head, size_t literals)
{
    struct row row;
    random_row(&row, head[LEDGER_ATOMS], fewer(literals, MOST_CONDITIONS), fewer(literals, MOST_OUTPUTS));
    row_write(&row, slot);
    slot[HITS] = PICK(0, below(4), UINT64_MAX - below(2), edge());
    slot[UNSHARED] = PICK(0, below(4), UINT64_MAX - below(2), edge());
    slot[BORN] = PICK(1, head[LEDGER_BORN], 1 + below(head[LEDGER_BORN]));
    slot[DELIVERED] = below(2);
}

/* A ledger that is accepted, also such as no list of calls leads to. */
static void write_ledger(struct ledger *l, uint64_t tier_rows)
{
    words_resize(&l->head, LEDGER_HEAD_WORDS);
    random_head(l->head.at, tier_rows);
    all_zero(&l->slots, LEDGER_SLOT_WORDS * tier_rows);
    size_t literals = tier_rows > LARGEST_KEPT ? 2 : MOST_OUTPUTS;
    uint64_t tips = PICK(0, 1, 2, 2, 3, 4); /* of so many rows in four */
    l->head.at[LEDGER_FOUNDED] = 0;
    for (uint64_t p = 0; p < l->head.at[LEDGER_ROWS]; p++) {
        uint64_t *slot = l->slots.at + p * LEDGER_SLOT_WORDS;
        random_slot(slot, l->head.at, literals);
        slot[LEDGER_SLOT_SOURCE] = chance(tips, 4) ? LEDGER_SOURCE_TIP : LEDGER_SOURCE_FOUNDED;
        l->head.at[LEDGER_FOUNDED] += slot[LEDGER_SLOT_SOURCE] == LEDGER_SOURCE_FOUNDED;
    }
    postings_write(l->head.at, l->slots.at, &l->postings);
}

/* A ledger with no rows, as Make leaves it. */
static void write_fresh(struct ledger *l)
{
    all_zero(&l->head, LEDGER_HEAD_WORDS);
    random_limits(l->head.at, random_tier());
    uint64_t tier_rows = l->head.at[LEDGER_TIER_ROWS];
    l->head.at[LEDGER_NUMBER] = below(4);
    l->head.at[LEDGER_REMAINING] = l->head.at[LEDGER_FOUNDED_WORK];
    l->head.at[LEDGER_SHARING] = l->head.at[LEDGER_SHARE_WORK];
    l->head.at[LEDGER_STALE] = l->head.at[LEDGER_FULL] = 1;
    all_zero(&l->slots, LEDGER_SLOT_WORDS * tier_rows);
    all_zero(&l->postings, LEDGER_POSTING_WORDS * tier_rows);
}

void given_start(void)
{
    for (size_t i = 0; i < KEPT; i++)
        write_fresh(&kept[i]);
}

/* ---- The buffers of a call beside its ledgers */
static void random_meter(uint64_t *meter)
{
    meter[LEDGER_CHARGED] = PICK(0, 0, below(1000), UINT64_MAX - below(40));
    uint64_t left = PICK(UINT64_MAX, UINT64_MAX, 1000, below(10), below(100), below(400));
    meter[LEDGER_LIMIT] = left > UINT64_MAX - meter[LEDGER_CHARGED] ? UINT64_MAX : meter[LEDGER_CHARGED] + left;
    if (chance(1, 30))
        meter[LEDGER_LIMIT] = edge();
}

static void mark(struct call *c, uint64_t code)
{
    uint64_t word = code / 128, bit = UINT64_C(1) << (code / 2 % 64);
    if ((c->given[HELD].at[word] | c->given[CUT].at[word]) & bit)
        return;
    c->given[code % 2 ? HELD : CUT].at[word] |= bit;
}

/* A region that a row speaks of: its conditions marked, all or all but one, its outputs marked or contradicted. */
static void mark_row(struct call *c, const struct row *row)
{
    size_t left_out = row->conditions > 0 && chance(1, 2) ? below(row->conditions) : row->conditions;
    uint64_t against = chance(1, 3);
    for (size_t i = 0; i < row->conditions + row->outputs; i++)
        if (i < row->conditions && i != left_out)
            mark(c, row->condition[i]);
        else if (i >= row->conditions && chance(1, 3))
            mark(c, row->output[i - row->conditions] ^ against);
}

static void random_region(struct call *c, uint64_t atoms, const struct row *row)
{
    all_zero(&c->given[HELD], (atoms + 63) / 64);
    all_zero(&c->given[CUT], (atoms + 63) / 64);
    if (chance(4, 5))
        mark_row(c, row);
    for (uint64_t n = PICK(0, 1, 3, 3, 10, 300); n > 0; n--)
        mark(c, below(2 * atoms));
}

static void random_cursor(uint64_t *cursor, const struct row *row)
{
    struct group groups[MOST_OUTPUTS];
    memset(cursor, 0, LEDGER_CURSOR_WORDS * sizeof(uint64_t));
    if (chance(1, 3))
        return;
    if (!row_packed(row)) {
        cursor[LEDGER_NEXT] = below(row->outputs + 1);
        return;
    }
    cursor[LEDGER_NEXT] = below(groups_of(row->output, row->outputs, groups) + 1);
    if (cursor[LEDGER_NEXT] == 0)
        return;
    struct group last = groups[cursor[LEDGER_NEXT] - 1];
    cursor[LEDGER_WORD] = last.word;
    cursor[LEDGER_PRESENT] = last.present & PICK(0, random_word(), UINT64_MAX);
    cursor[LEDGER_ABSENT] = last.absent & PICK(0, random_word(), UINT64_MAX);
}

static void any_words(struct words *w, size_t length)
{
    words_resize(w, length);
    for (size_t i = 0; i < length; i++)
        w->at[i] = chance(1, 8) ? edge() : random_word();
}

/* The atoms given to candidates; for close scratch, in which anything may stand. */
static void random_atoms(struct call *c, uint64_t atoms, const struct row *row)
{
    struct words *w = &c->given[ATOMS];
    if (c->operation == CLOSE) {
        any_words(w, atoms);
        return;
    }
    words_resize(w, below(12));
    for (size_t i = 0; i < w->length; i++)
        w->at[i] = row->outputs > 0 && chance(1, 2) ? row->output[below(row->outputs)] / 2 : PICK(below(atoms), below(atoms), edge());
}

static void copy_codes(struct words *w, const uint64_t *codes, size_t length)
{
    words_resize(w, length);
    for (size_t i = 0; i < length; i++)
        w->at[i] = codes[i];
}

/* All that the call is lent beside its ledger l, fit for it. */
static void give_others(struct call *c, const struct ledger *l)
{
    const uint64_t *head = l->head.at;
    struct row row, offered;
    c->position = head[LEDGER_ROWS] == 0 ? below(3) : below(head[LEDGER_ROWS]);
    if (c->position >= head[LEDGER_ROWS] || !row_read(l->slots.at + c->position * LEDGER_SLOT_WORDS, &row))
        random_row(&row, head[LEDGER_ATOMS], MOST_CONDITIONS, MOST_OUTPUTS);
    any_words(&c->given[ANSWER], LEDGER_ANSWER_WORDS);
    words_resize(&c->given[METER], LEDGER_METER_WORDS);
    random_meter(c->given[METER].at);
    words_resize(&c->given[CURSOR], LEDGER_CURSOR_WORDS);
    random_cursor(c->given[CURSOR].at, &row);
    random_region(c, head[LEDGER_ATOMS], &row);
    c->region_atoms = head[LEDGER_ATOMS];
    c->atom = below(head[LEDGER_ATOMS]);
    c->value = PICK(0, 1, edge());
    c->number = PICK(below(4), edge());
    c->source = chance(7, 8) ? below(2) : PICK(2, UINT64_MAX, random_word(), SPAN + below(2), (UINT64_C(1) << 32) + below(2), edge());
    near_row(&offered, l, head[LEDGER_FOUNDED_CONDITIONS], head[LEDGER_FOUNDED_OUTPUTS]);
    if (chance(1, 2))
        random_row(&offered, head[LEDGER_ATOMS], head[LEDGER_FOUNDED_CONDITIONS], head[LEDGER_FOUNDED_OUTPUTS]);
    if (offered.outputs > 0 && chance(1, 30)) /* mostly no row any more, but one in its low bits */
        offered.output[offered.outputs - 1] += PICK(SPAN, UINT64_C(1) << 32);
    copy_codes(&c->given[CONDITIONS], offered.condition, offered.conditions);
    copy_codes(&c->given[OUTPUTS], offered.output, offered.outputs);
    random_atoms(c, head[LEDGER_ATOMS], &row);
    any_words(&c->given[FOUND], head[LEDGER_TIER_ROWS]);
}

/* Make is lent limits, and buffers in which anything may stand. */
static void give_make(struct call *c)
{
    words_resize(&c->given[LIMITS], LEDGER_LIMIT_WORDS);
    random_limits(c->given[LIMITS].at, random_tier());
    if (chance(1, 20))
        c->given[LIMITS].at[LEDGER_ATOMS] = PICK(MOST_ATOMS, MOST_ATOMS + 1, MOST_ATOMS + 1 + below(MOST_ATOMS));
    any_words(&c->given[HEAD], LEDGER_HEAD_WORDS);
    any_words(&c->given[SLOTS], LEDGER_SLOT_WORDS * c->given[LIMITS].at[LEDGER_TIER_ROWS]);
    any_words(&c->given[POSTINGS], LEDGER_POSTING_WORDS * c->given[LIMITS].at[LEDGER_TIER_ROWS]);
}

/* Decide is lent words for one atom more than there may be. */
static void give_beyond(struct call *c)
{
    const struct row none = {0};
    random_region(c, MOST_ATOMS + 1, &none);
    c->region_atoms = MOST_ATOMS + 1;
}

/* ---- Damage */

/* A place in a buffer: half the time where words that are not zero stand. */
static size_t somewhere(const struct call *c, int b)
{
    const struct words *w = &c->given[b];
    size_t place = below(w->length);
    if ((b == SLOTS || b == STORE_SLOTS) && chance(1, 2)) {
        uint64_t rows = c->given[b == SLOTS ? HEAD : STORE_HEAD].at[LEDGER_ROWS];
        place = below(fewer(rows, 80) + 1) * LEDGER_SLOT_WORDS + (chance(1, 8) ? LEDGER_SLOT_SOURCE : below(16));
    }
    return (b == POSTINGS || b == STORE_POSTINGS) && chance(1, 2) ? below(fewer(w->length, 40)) : place < w->length ? place : below(w->length);
}

/* Among others, of slots the length without their sources. */
static size_t other_length(size_t length)
{
    uint64_t other = PICK(0, 1, length - 1, length + 1, length + 1, 2 * length, length / 2, length + LEDGER_SLOT_WORDS,
                          length / LEDGER_SLOT_WORDS * (LEDGER_SLOT_WORDS - 1), below(3000));
    return other > MOST_ATOMS + 1 ? 0 : other;
}

/* A stretch of words is copied over another. */
static void overlay(struct words *w)
{
    size_t length = PICK(1, 3, LEDGER_SLOT_WORDS);
    if (length > w->length)
        return;
    size_t unit = length == LEDGER_SLOT_WORDS ? length : 1, places = (w->length - length) / unit + 1;
    memmove(w->at + unit * below(places), w->at + unit * below(places), length * sizeof(uint64_t));
}

static void damage_word(struct call *c, int b)
{
    uint64_t *word = &c->given[b].at[somewhere(c, b)], *other = &c->given[b].at[somewhere(c, b)], old = *word;
    switch (below(6)) {
    case 0: *word = edge(); break;
    case 1: *word ^= UINT64_C(1) << below(64); break;
    case 2: *word += PICK(1, UINT64_MAX); break;
    case 3:
        *word = *other;
        *other = old;
        break;
    case 4: *word += PICK(SPAN, UINT64_C(1) << 32); break;
    default: *word = PICK(0, random_word()); break;
    }
}

static void damage_number(struct call *c)
{
    uint64_t *number = (uint64_t *[]){&c->position, &c->atom, &c->region_atoms, &c->value, &c->number, &c->source}[below(6)];
    *number = PICK(edge(), *number + 1, *number - 1, c->given[HEAD].length > LEDGER_ROWS ? c->given[HEAD].at[LEDGER_ROWS] : 0);
}

/* Another source of some row, or another count of them, or both, of the ledger or of the store. */
static void damage_sources(struct call *c)
{
    bool of_store = operations[c->operation].lends & BIT(STORE_HEAD) && chance(1, 2);
    uint64_t *head = c->given[of_store ? STORE_HEAD : HEAD].at;
    struct words *slots = &c->given[of_store ? STORE_SLOTS : SLOTS];
    uint64_t place = below(fewer(head[LEDGER_ROWS], MOST_ROWS) + 1) * LEDGER_SLOT_WORDS + LEDGER_SLOT_SOURCE;
    if (chance(2, 3) && place < slots->length)
        slots->at[place] = PICK(0, 1, 1, 2, UINT64_MAX, SPAN, UINT64_C(1) << 32, edge());
    if (chance(1, 2))
        head[LEDGER_FOUNDED] = PICK(head[LEDGER_FOUNDED] + 1, head[LEDGER_FOUNDED] - 1, head[LEDGER_ROWS], 0, edge());
}

/* One damage to one of the buffers, or to a number. */
static void damage(struct call *c)
{
    int b = (int)below(BUFFERS);
    while (!(operations[c->operation].lends & BIT(b)))
        b = (int)below(BUFFERS);
    struct words *w = &c->given[b];
    uint64_t kind = below(12);
    if (kind == 0)
        damage_number(c);
    else if (kind <= 2 && !(FIXED & BIT(b)))
        words_resize(w, other_length(w->length));
    else if (kind == 3 && w->length > 0)
        any_words(w, w->length);
    else if (kind == 4)
        overlay(w);
    else if (kind == 6 && operations[c->operation].lends & BIT(HEAD))
        damage_sources(c);
    else if (kind == 5 && (b == HEAD || b == STORE_HEAD))
        words_copy(w, &kept[below(KEPT)].head);
    else if (w->length > 0)
        damage_word(c, b);
}

/* Nothing but random words, in buffers of any length. */
static void give_noise(struct call *c)
{
    for (int b = 0; b < BUFFERS; b++)
        any_words(&c->given[b], FIXED & BIT(b) ? c->given[b].length : below(PICK(2, 20, 400)));
    c->number = edge();
    c->position = edge();
    c->region_atoms = edge();
    c->atom = edge();
    c->value = edge();
    c->source = edge();
}

/* ---- A whole call */
static void give_ledger(struct call *c, const struct ledger *l, bool as_store)
{
    words_copy(&c->given[as_store ? STORE_HEAD : HEAD], &l->head);
    words_copy(&c->given[as_store ? STORE_SLOTS : SLOTS], &l->slots);
    words_copy(&c->given[as_store ? STORE_POSTINGS : POSTINGS], &l->postings);
}

/* A ledger for the other side of a transfer, mostly over as many atoms. */
static size_t find_store(uint64_t atoms)
{
    size_t found = below(KEPT);
    for (int tries = 0; tries < 40 && kept[found].head.at[LEDGER_ATOMS] != atoms; tries++)
        found = below(KEPT);
    return found;
}

/* From time to time a kept ledger is given up for another. */
static void renew(void)
{
    struct ledger *l = &kept[below(KEPT)];
    if (chance(1, 4))
        write_fresh(l);
    else if (chance(3, 4))
        write_ledger(l, random_tier());
    else
        copy_ledger(l, &kept[below(KEPT)]);
}

void give(struct call *c)
{
    static struct ledger large;
    const struct ledger *l = &kept[tier = below(KEPT)];
    if (chance(1, 24))
        renew();
    c->operation = (enum operation_number)below(OPERATIONS);
    if (chance(1, 600)) {
        write_ledger(&large, PICK(MOST_ROWS, MOST_ROWS, MOST_ROWS, 600));
        l = &large;
        tier = KEPT;
    }
    store = find_store(l->head.at[LEDGER_ATOMS]);
    give_ledger(c, l, false);
    if (operations[c->operation].lends & BIT(STORE_HEAD))
        give_ledger(c, &kept[store], true);
    give_others(c, l);
    words_resize(&c->given[LIMITS], LEDGER_LIMIT_WORDS);
    if (c->operation == MAKE)
        give_make(c);
    if (c->operation == DECIDE && chance(1, 100))
        give_beyond(c);
    if (chance(1, 40))
        give_noise(c);
    for (uint64_t n = PICK(0, 0, 0, 0, 1, 1, 1, 2); n > 0; n--)
        damage(c);
}

/* What a call left is copied to the place of a kept ledger, if it is not too large to be given again and again. */
static void keep_one(const struct call *c, size_t place, bool as_store)
{
    const uint64_t *head = c->lent[as_store ? STORE_HEAD : HEAD];
    if (place == KEPT || head[LEDGER_TIER_ROWS] > LARGEST_KEPT)
        return;
    struct words left[] = {
        {LEDGER_HEAD_WORDS, 0, c->lent[as_store ? STORE_HEAD : HEAD]},
        {LEDGER_SLOT_WORDS * head[LEDGER_TIER_ROWS], 0, c->lent[as_store ? STORE_SLOTS : SLOTS]},
        {LEDGER_POSTING_WORDS * head[LEDGER_TIER_ROWS], 0, c->lent[as_store ? STORE_POSTINGS : POSTINGS]},
    };
    words_copy(&kept[place].head, &left[0]);
    words_copy(&kept[place].slots, &left[1]);
    words_copy(&kept[place].postings, &left[2]);
}

void keep(const struct call *c)
{
    if (c->operation == DECIDE || chance(c->operation == MAKE ? 9 : 2, 10))
        return;
    keep_one(c, tier, false);
    if (c->operation == SEED || c->operation == DELIVER)
        keep_one(c, store, true);
}

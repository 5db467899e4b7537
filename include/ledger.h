/*
 * The learned-row ledger of the oven panel, for C. Link target/staticlib/libboundary.a (made by `tests/staticlib boundary`; x86-64).
 *
 * Every function works on words of 64 bits that the caller lends for the time of the call. It allocates nothing, keeps nothing between
 * calls, always returns, and asks nothing of the numbers and words: each is proved for every value of them. Of the pointers it asks what C
 * cannot say otherwise: none is null, each points to as many words as stand behind it, and what a call writes overlaps nothing else
 * that is lent to that call.
 *
 * The result is 0, or the number of a refusal. A refused call writes nothing. The refusals:
 *   1  limits outside their ranges: atoms 1 to 1,048,576, tier_rows 1 to 4,096, founded_conditions 0 to 16, founded_outputs 0 to 64
 *   2  a slice of another length: slots 169 * tier_rows words, postings 80 * tier_rows words, and the buffers that a call asks for
 *   3  header, slots and postings that are no ledger's; so are a row whose source is over 1, and a founded count other than that of its
 *      Founded rows
 *   4  conditions and outputs that are no row: more than founded_conditions or founded_outputs of them, a code at 2 * atoms or above,
 *      outputs that do not ascend, or conditions whose atoms do not ascend
 *   5  no row at the position
 *   6  held and cut are no region: each is (atoms + 63) / 64 words, with no common bit and no bit at `atoms` or above
 *   7  a tier and a store over different numbers of atoms
 *   8  a cursor that is not of this row
 *   11 a source over 1 in an offer
 * They are tested in this order; the first that applies is the result. Of two ledgers the tier's 1, 2, 3 come first, then the store's.
 *
 * A call that is not refused writes `answer`, all four words: its case, a value where the case has one, the ticks that it charged, and the
 * code of a contradicted output where Deduce or Close names one. What an answer does not have is 0.
 */
#ifndef LEDGER_H
#define LEDGER_H

#include <stddef.h>
#include <stdint.h>

#ifdef __cplusplus
extern "C" {
#endif

/* ---- The header, `head`: the limits, the counts, two flags (any word but 0 is read as 1, and comes back as 1), the seed mark, the count of
 * Founded rows. */
enum {
    LEDGER_ATOMS = 0,
    LEDGER_TIER_ROWS = 1,
    LEDGER_FOUNDED_CONDITIONS = 2,
    LEDGER_FOUNDED_OUTPUTS = 3,
    LEDGER_FOUNDED_FLOOR = 4,
    LEDGER_FOUNDED_ATTEMPTS = 5,
    LEDGER_FOUNDED_WORK = 6,
    LEDGER_SHARE_WORK = 7,
    LEDGER_SHARE_CONDITIONS = 8,
    LEDGER_SHARE_HITS = 9,
    LEDGER_LIMIT_WORDS = 10,
    LEDGER_NUMBER = 10,
    LEDGER_ROWS = 11,
    LEDGER_BORN = 12,
    LEDGER_EPOCH = 13,
    LEDGER_ATTEMPTS = 14,
    LEDGER_REMAINING = 15,
    LEDGER_SHARING = 16,
    LEDGER_EVICTED = 17,
    LEDGER_DELIVERIES = 18,
    LEDGER_SEEDED = 19,
    LEDGER_STALE = 20,
    LEDGER_FULL = 21,
    LEDGER_MARKED = 22,      /* 0: no mark, the next two words are ignored and come back as 0; any other: a mark, and it comes back as 1 */
    LEDGER_MARK_NUMBER = 23, /* the store's number */
    LEDGER_MARK_BORN = 24,
    LEDGER_FOUNDED = 25,     /* how many of the rows are Founded; the others are Tips */
    LEDGER_HEAD_WORDS = 26
};

/* ---- The words of `answer`, and of `meter` (what is charged so far, and the limit that it may not pass). */
enum { LEDGER_CASE = 0, LEDGER_VALUE = 1, LEDGER_TICKS = 2, LEDGER_CONTRADICTED = 3, LEDGER_ANSWER_WORDS = 4 };
enum { LEDGER_CHARGED = 0, LEDGER_LIMIT = 1, LEDGER_METER_WORDS = 2 };

/* ---- The words of a cursor over a row's outputs; four zeros are the start. */
enum { LEDGER_NEXT = 0, LEDGER_WORD = 1, LEDGER_PRESENT = 2, LEDGER_ABSENT = 3, LEDGER_CURSOR_WORDS = 4 };

/* ---- Words of the buffers for each row of the tier; the last of a slot is the row's source. */
enum { LEDGER_SLOT_WORDS = 169, LEDGER_SLOT_SOURCE = 168, LEDGER_POSTING_WORDS = 80 };

/* ---- The source of a row. While there are no more Founded rows than founded_floor, only Tips are evicted; while there are more, any row. */
enum { LEDGER_SOURCE_FOUNDED = 0, LEDGER_SOURCE_TIP = 1 };

/* ---- The cases. A literal's code is 2 * atom, plus 1 for held. */
enum { LEDGER_DONE = 0, LEDGER_STOPPED = 2 };                                /* Stopped is 2 everywhere: the meter was at its limit */
enum { LEDGER_NOTHING = 0, LEDGER_FORCE = 1, LEDGER_REQUIRE = 3 };           /* deduce */
enum { LEDGER_SHUT = 1, LEDGER_DECLINED = 3, LEDGER_SUBSUMED = 4, LEDGER_ADDED = 5 }; /* offer */
enum { LEDGER_CLOSED = 0, LEDGER_CONFLICT = 1 };                             /* close */
enum { LEDGER_NONE = 0, LEDGER_NAMED = 1 };                                  /* the value of a close: is a contradicted output named? */
enum { LEDGER_END = 0, LEDGER_OUTPUT = 1 };                                  /* next output */
enum { LEDGER_FALSE = 0, LEDGER_TRUE = 1 };                                  /* decide */

/*
 * Make. Lent: `limits`, ten words in the header's order; `number`, given to the ledger for good.
 * Back: `head` is the fresh header, every word of `slots`, `postings` and `answer` is 0. What they held before does not matter.
 * Refused: 1, 2.
 */
uint64_t ledger_make(const uint64_t limits[LEDGER_LIMIT_WORDS], uint64_t number,
                     uint64_t head[LEDGER_HEAD_WORDS], uint64_t answer[LEDGER_ANSWER_WORDS],
                     uint64_t *slots, size_t slots_len, uint64_t *postings, size_t postings_len);

/*
 * Begin. Lent: a ledger.
 * Back: `head` with full 1: the next search takes all rows; every word of `answer` is 0.
 * Refused: 1, 2, 3.
 */
uint64_t ledger_begin(uint64_t head[LEDGER_HEAD_WORDS], uint64_t answer[LEDGER_ANSWER_WORDS],
                      const uint64_t *slots, size_t slots_len, const uint64_t *postings, size_t postings_len);

/*
 * Hit. Lent: a ledger, a position.
 * Back: the row there has one hit more, and one more that is not shared yet, both at most 2^64 - 1; `head` is written, its numbers as they
 * were; every word of `answer` is 0.
 * Refused: 1, 2, 3, 5.
 */
uint64_t ledger_hit(uint64_t head[LEDGER_HEAD_WORDS], uint64_t answer[LEDGER_ANSWER_WORDS],
                    uint64_t *slots, size_t slots_len, const uint64_t *postings, size_t postings_len, uint64_t position);

/*
 * Deduce. Lent: a ledger, a position, a region, a meter.
 * Back: what the row there says of the region. `answer` is 0 Nothing; 1 Force, all its conditions hold; 2 Stopped; 3 Require, with the code
 * required as its value and, as its contradicted word, the least code among the row's outputs whose opposite is marked in the region.
 * `meter` has the ticks charged.
 * Refused: 1, 2, 3, 5, 6.
 */
uint64_t ledger_deduce(const uint64_t head[LEDGER_HEAD_WORDS], uint64_t answer[LEDGER_ANSWER_WORDS], uint64_t meter[LEDGER_METER_WORDS],
                       const uint64_t *slots, size_t slots_len, const uint64_t *postings, size_t postings_len, uint64_t position,
                       const uint64_t *held, size_t held_len, const uint64_t *cut, size_t cut_len);

/*
 * Next output. Lent: as Deduce, and a cursor: four zeros at first, then as the last call left it.
 * Back: `answer` is 0 End; 1 Output, with the output's code as its value; 2 Stopped. `cursor` stands past it, `meter` has the ticks
 * charged.
 * Refused: 1, 2, 3, 5, 6, 8.
 */
uint64_t ledger_next_output(const uint64_t head[LEDGER_HEAD_WORDS], uint64_t answer[LEDGER_ANSWER_WORDS],
                            uint64_t meter[LEDGER_METER_WORDS], uint64_t cursor[LEDGER_CURSOR_WORDS],
                            const uint64_t *slots, size_t slots_len, const uint64_t *postings, size_t postings_len, uint64_t position,
                            const uint64_t *held, size_t held_len, const uint64_t *cut, size_t cut_len);

/*
 * Decide. Lent: a region over `atoms` atoms; an atom, to be cut if `value` is 0 and else held.
 * Back: `answer` is 1, and the atom is marked (it may have been so already); or 0, and nothing is changed: the atom is not below `atoms`,
 * or the opposite is marked.
 * Refused: 6, also for `atoms` outside 1 to 1,048,576.
 */
uint64_t ledger_decide(uint64_t answer[LEDGER_ANSWER_WORDS], uint64_t atoms, uint64_t *held, size_t held_len, uint64_t *cut, size_t cut_len,
                       uint64_t atom, uint64_t value);

/*
 * Offer. Lent: a ledger, a meter, a row as its conditions and its outputs, ascending codes, and its source.
 * Back: `answer` is 1 Shut, the ledger takes no offers: its attempts or reads are used up, or it is full, holds no Tip and has no more
 * Founded rows than founded_floor; 2 Stopped; 3 Declined, the reads left do not pay for it; 4 Subsumed, with the position of the row that
 * says as much as its value, which keeps its own source; 5 Added, with the row's own position as its value. A row that is added has the source
 * offered, also if it was joined with one of the other source. `head`, `slots` and `postings` are the ledger after it, `meter` has the ticks
 * charged.
 * Refused: 1, 2, 3, 4, 11.
 */
uint64_t ledger_offer(uint64_t head[LEDGER_HEAD_WORDS], uint64_t answer[LEDGER_ANSWER_WORDS], uint64_t meter[LEDGER_METER_WORDS],
                      uint64_t *slots, size_t slots_len, uint64_t *postings, size_t postings_len,
                      const uint64_t *conditions, size_t conditions_len, const uint64_t *outputs, size_t outputs_len, uint64_t source);

/*
 * Candidates. Lent: a ledger, a meter, the atoms that were decided, and `found`, tier_rows words.
 * Back: `found` has the positions of the rows to be looked at, ascending, then zeros; `answer` is 0, with their count as its value; or 2
 * Stopped, and every word of `found` is 0. All rows, if full is 1 or there are at most 64; full is 0 then. `head` and `postings` are the
 * ledger after it, `meter` has the ticks charged.
 * Refused: 1, 2, 3.
 */
uint64_t ledger_candidates(uint64_t head[LEDGER_HEAD_WORDS], uint64_t answer[LEDGER_ANSWER_WORDS], uint64_t meter[LEDGER_METER_WORDS],
                           const uint64_t *slots, size_t slots_len, uint64_t *postings, size_t postings_len,
                           const uint64_t *atoms, size_t atoms_len, uint64_t *found, size_t found_len);

/*
 * Close. Lent: a ledger, a meter, a region, and two buffers to work in: `rows`, tier_rows words, and `atoms`, as many words as there are
 * atoms.
 * Back: `held` and `cut` with all that the rows force or require. `answer` is 0 Closed; 1 Conflict, a row decides against the region; 2
 * Stopped. Conflict and Stopped keep what was decided so far. Its value is 0 if no row required anything; else 1, and its contradicted word
 * is the output that the last Require named, as Deduce would have at that time; so too at Conflict and Stopped. A Conflict is never a
 * Require's own: the output that ended the closing is not named. Every word of `rows` and `atoms` is 0; what they held before does not matter.
 * `head`, `slots` and `postings` are the ledger after it: a row has one hit more, and one more that is not shared yet, for each time that
 * reading it decided at least one atom or ended in Conflict. `meter` has the ticks charged.
 * Refused: 1, 2, 3, 6.
 */
uint64_t ledger_close(uint64_t head[LEDGER_HEAD_WORDS], uint64_t answer[LEDGER_ANSWER_WORDS], uint64_t meter[LEDGER_METER_WORDS],
                      uint64_t *slots, size_t slots_len, uint64_t *postings, size_t postings_len,
                      uint64_t *held, size_t held_len, uint64_t *cut, size_t cut_len,
                      uint64_t *rows, size_t rows_len, uint64_t *atoms, size_t atoms_len);

/*
 * Seed. Lent: two ledgers that share no word, a tier and a store, and a meter. Any ledger may stand as the store.
 * Back: the tier has taken the store's rows in turn, each with its hits and its source; those born up to its seed mark are passed over, if
 * the mark has the store's number. The reads are paid from the tier's sharing account. `answer` is 0 Done, also where it ended at a row that
 * the account did not pay for or that found no place; or 2 Stopped. What was taken stays. `tier`, `tier_slots` and `tier_postings` are the
 * tier after it, marked with the store's number and born if it came to the end. `store` has the rows added counted under seeded. `meter` has
 * the ticks charged.
 * Refused: the tier's 1, 2, 3; the store's 1, 2, 3; 7.
 */
uint64_t ledger_seed(uint64_t tier[LEDGER_HEAD_WORDS], uint64_t store[LEDGER_HEAD_WORDS],
                     uint64_t answer[LEDGER_ANSWER_WORDS], uint64_t meter[LEDGER_METER_WORDS],
                     uint64_t *tier_slots, size_t tier_slots_len, uint64_t *tier_postings, size_t tier_postings_len,
                     const uint64_t *store_slots, size_t store_slots_len, const uint64_t *store_postings, size_t store_postings_len);

/*
 * Deliver. Lent: as Seed.
 * Back: the store has taken the tier's rows in turn, each with its unshared hits and its source. Passed over are those delivered with none
 * unshared, and those with more conditions than the tier's share_conditions and fewer hits than its share_hits. The reads are paid from the
 * tier's sharing account. `answer` is as Seed's. What was taken stays. `tier` has what is left of the account; in `tier_slots` a row taken is
 * delivered, with none unshared. `store`, `store_slots` and `store_postings` are the store after it, with the rows added counted under
 * deliveries. `meter` has the ticks charged.
 * Refused: as Seed.
 */
uint64_t ledger_deliver(uint64_t tier[LEDGER_HEAD_WORDS], uint64_t store[LEDGER_HEAD_WORDS],
                        uint64_t answer[LEDGER_ANSWER_WORDS], uint64_t meter[LEDGER_METER_WORDS],
                        uint64_t *tier_slots, size_t tier_slots_len, const uint64_t *tier_postings, size_t tier_postings_len,
                        uint64_t *store_slots, size_t store_slots_len, uint64_t *store_postings, size_t store_postings_len);

#ifdef __cplusplus
}
#endif

#endif

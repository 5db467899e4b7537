/* What the files of this folder share: the words of a call, the eleven operations, and the parts of the run. */
#ifndef FUZZ_H
#define FUZZ_H

#include "ledger.h"
#include <stdbool.h>

/* ---- Words of the test's own, of any length. */
struct words {
    size_t length, room;
    uint64_t *at;
};

void words_resize(struct words *w, size_t length); /* what is new is 0 */
void words_copy(struct words *to, const struct words *from);

/* ---- Random numbers, the same for the same seed. */
void random_start(uint64_t seed);
uint64_t random_word(void);
uint64_t below(uint64_t end); /* `end` is not 0 */
bool chance(uint64_t part, uint64_t whole);
uint64_t pick(const uint64_t *list, size_t length);
uint64_t edge(void); /* a number at the end of some range, or any */

#define PICK(...) pick((const uint64_t[]){__VA_ARGS__}, sizeof((const uint64_t[]){__VA_ARGS__}) / sizeof(uint64_t))

/* ---- All buffers that some call is lent. HEAD, SLOTS and POSTINGS are the tier's in a transfer; FOUND is also close's row scratch. */
enum buffer {
    LIMITS, HEAD, STORE_HEAD, ANSWER, METER, CURSOR,
    SLOTS, POSTINGS, STORE_SLOTS, STORE_POSTINGS, HELD, CUT, CONDITIONS, OUTPUTS, ATOMS, FOUND,
    BUFFERS
};
#define BIT(n) (1u << (n))
#define FIXED (BIT(SLOTS) - 1) /* those before it have one length */

enum operation_number { MAKE, BEGIN, HIT, DEDUCE, NEXT_OUTPUT, DECIDE, OFFER, CANDIDATES, CLOSE, SEED, DELIVER, OPERATIONS };

/* A call: the words that it is given, and the memory with the same words that it is lent. */
struct call {
    enum operation_number operation;
    struct words given[BUFFERS];
    uint64_t *lent[BUFFERS];
    uint64_t number, position, region_atoms, atom, value, source;
};

struct operation {
    const char *name;
    unsigned lends, writes;   /* a bit a buffer */
    unsigned refusals;        /* a bit a number */
    unsigned cases, valued;   /* a bit a case; those that come with a value */
    unsigned naming;          /* a bit a case; those that can name a contradicted output */
    uint64_t (*run)(const struct call *);
};
extern const struct operation operations[OPERATIONS];

/* ---- Memory to lend, in which a step outside a buffer is seen: pages that cannot be read around it, or (for valgrind) a malloc of its own. */
void lent_start(bool fenced);
void lend(struct call *c);
bool margins_kept(const struct call *c);
void take_back(struct call *c);

/* ---- The test's own reading of document 01, and of 02 on sources. */
enum { MOST_CONDITIONS = 16, MOST_OUTPUTS = 64, MOST_ROWS = 4096, MOST_ATOMS = 1048576, MOST_GROUPS = 53 };
enum { HALF = 32768, SPAN = 65536 }; /* the first atom, and the first code, beyond 16 bits: there numbers cut to their low bits would be others */
struct row {
    size_t conditions, outputs;
    uint64_t condition[MOST_CONDITIONS], output[MOST_OUTPUTS];
};
struct group {
    uint64_t word, present, absent;
};

bool row_read(const uint64_t *slot, struct row *row);
void row_write(const struct row *row, uint64_t *slot); /* the words of the row; hits, unshared, born, delivered and source are left */
bool row_packed(const struct row *row);
size_t groups_of(const uint64_t *codes, size_t length, struct group *groups);
void postings_write(const uint64_t *head, const uint64_t *slots, struct words *postings);
bool region_fits(uint64_t atoms, const struct words *held, const struct words *cut);
bool marked(const struct words *held, const struct words *cut, uint64_t code); /* a code of the region's atoms */
bool cursor_fits(const struct row *row, const uint64_t *cursor);
bool contents_fit(const uint64_t *head, const uint64_t *slots, const uint64_t *postings);
bool shuts(const uint64_t *head); /* an accepted ledger takes no offers */
uint64_t victim_of(const uint64_t *head, const uint64_t *slots); /* the row to be evicted; as many as there are rows for none */
uint64_t refusal_of(const struct call *c); /* what the documents say: 0, or the number */

/* ---- What calls are given: good ledgers, kept from call to call, and damage. */
void given_start(void);
void give(struct call *c);
void keep(const struct call *c); /* the ledgers that the call left are good ones */

/* ---- After a call: what is wrong with it, or NULL. */
const char *fault_of(const struct call *c, uint64_t result);

/* ---- What occurred. `show_occurred` prints it and gives how much of what must occur did not. */
void occurred(const struct call *c, uint64_t result);
uint64_t show_occurred(void);

#endif

/* The eleven functions of ledger.h: what each is lent, what it may write, and how it can end. */
#include "fuzz.h"

#define SLICE(b) c->lent[b], c->given[b].length

static uint64_t make(const struct call *c)
{
    return ledger_make(c->lent[LIMITS], c->number, c->lent[HEAD], c->lent[ANSWER], SLICE(SLOTS), SLICE(POSTINGS));
}

static uint64_t begin(const struct call *c) { return ledger_begin(c->lent[HEAD], c->lent[ANSWER], SLICE(SLOTS), SLICE(POSTINGS)); }

static uint64_t hit(const struct call *c)
{
    return ledger_hit(c->lent[HEAD], c->lent[ANSWER], SLICE(SLOTS), SLICE(POSTINGS), c->position);
}

static uint64_t deduce(const struct call *c)
{
    return ledger_deduce(c->lent[HEAD], c->lent[ANSWER], c->lent[METER], SLICE(SLOTS), SLICE(POSTINGS), c->position, SLICE(HELD), SLICE(CUT));
}

static uint64_t next_output(const struct call *c)
{
    return ledger_next_output(c->lent[HEAD], c->lent[ANSWER], c->lent[METER], c->lent[CURSOR], SLICE(SLOTS), SLICE(POSTINGS), c->position,
                              SLICE(HELD), SLICE(CUT));
}

static uint64_t decide(const struct call *c)
{
    return ledger_decide(c->lent[ANSWER], c->region_atoms, SLICE(HELD), SLICE(CUT), c->atom, c->value);
}

static uint64_t offer(const struct call *c)
{
    return ledger_offer(c->lent[HEAD], c->lent[ANSWER], c->lent[METER], SLICE(SLOTS), SLICE(POSTINGS), SLICE(CONDITIONS), SLICE(OUTPUTS),
                        c->source);
}

static uint64_t candidates(const struct call *c)
{
    return ledger_candidates(c->lent[HEAD], c->lent[ANSWER], c->lent[METER], SLICE(SLOTS), SLICE(POSTINGS), SLICE(ATOMS), SLICE(FOUND));
}

static uint64_t close(const struct call *c)
{
    return ledger_close(c->lent[HEAD], c->lent[ANSWER], c->lent[METER], SLICE(SLOTS), SLICE(POSTINGS), SLICE(HELD), SLICE(CUT), SLICE(FOUND),
                        SLICE(ATOMS));
}

static uint64_t seed(const struct call *c)
{
    return ledger_seed(c->lent[HEAD], c->lent[STORE_HEAD], c->lent[ANSWER], c->lent[METER], SLICE(SLOTS), SLICE(POSTINGS),
                       SLICE(STORE_SLOTS), SLICE(STORE_POSTINGS));
}

static uint64_t deliver(const struct call *c)
{
    return ledger_deliver(c->lent[HEAD], c->lent[STORE_HEAD], c->lent[ANSWER], c->lent[METER], SLICE(SLOTS), SLICE(POSTINGS),
                          SLICE(STORE_SLOTS), SLICE(STORE_POSTINGS));
}

#define LEDGER (BIT(HEAD) | BIT(SLOTS) | BIT(POSTINGS))
#define STORE (BIT(STORE_HEAD) | BIT(STORE_SLOTS) | BIT(STORE_POSTINGS))
#define REGION (BIT(HELD) | BIT(CUT))
#define WORK (BIT(ANSWER) | BIT(METER))
#define ACCEPTED (BIT(1) | BIT(2) | BIT(3))

const struct operation operations[OPERATIONS] = {
    [MAKE] = {"make", LEDGER | BIT(LIMITS) | BIT(ANSWER), LEDGER | BIT(ANSWER), BIT(1) | BIT(2), BIT(0), 0, 0, make},
    [BEGIN] = {"begin", LEDGER | BIT(ANSWER), BIT(HEAD) | BIT(ANSWER), ACCEPTED, BIT(0), 0, 0, begin},
    [HIT] = {"hit", LEDGER | BIT(ANSWER), BIT(HEAD) | BIT(SLOTS) | BIT(ANSWER), ACCEPTED | BIT(5), BIT(0), 0, 0, hit},
    [DEDUCE] = {"deduce", LEDGER | REGION | WORK, WORK, ACCEPTED | BIT(5) | BIT(6), BIT(0) | BIT(1) | BIT(2) | BIT(3), BIT(3), BIT(3),
                deduce},
    [NEXT_OUTPUT] = {"next_output", LEDGER | REGION | WORK | BIT(CURSOR), WORK | BIT(CURSOR), ACCEPTED | BIT(5) | BIT(6) | BIT(8),
                     BIT(0) | BIT(1) | BIT(2), BIT(1), 0, next_output},
    [DECIDE] = {"decide", REGION | BIT(ANSWER), REGION | BIT(ANSWER), BIT(6), BIT(0) | BIT(1), 0, 0, decide},
    [OFFER] = {"offer", LEDGER | WORK | BIT(CONDITIONS) | BIT(OUTPUTS), LEDGER | WORK, ACCEPTED | BIT(4) | BIT(11),
               BIT(1) | BIT(2) | BIT(3) | BIT(4) | BIT(5), BIT(4) | BIT(5), 0, offer},
    [CANDIDATES] = {"candidates", LEDGER | WORK | BIT(ATOMS) | BIT(FOUND), BIT(HEAD) | BIT(POSTINGS) | WORK | BIT(FOUND), ACCEPTED,
                    BIT(0) | BIT(2), BIT(0), 0, candidates},
    [CLOSE] = {"close", LEDGER | REGION | WORK | BIT(ATOMS) | BIT(FOUND), LEDGER | REGION | WORK | BIT(ATOMS) | BIT(FOUND),
               ACCEPTED | BIT(6), BIT(0) | BIT(1) | BIT(2), BIT(0) | BIT(1) | BIT(2), BIT(0) | BIT(1) | BIT(2), close},
    [SEED] = {"seed", LEDGER | STORE | WORK, LEDGER | BIT(STORE_HEAD) | WORK, ACCEPTED | BIT(7), BIT(0) | BIT(2), 0, 0, seed},
    [DELIVER] = {"deliver", LEDGER | STORE | WORK, BIT(HEAD) | BIT(SLOTS) | STORE | WORK, ACCEPTED | BIT(7), BIT(0) | BIT(2), 0, 0, deliver},
};

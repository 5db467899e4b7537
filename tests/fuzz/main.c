/* Any words through the boundary.
 *
 *     fuzz CALLS SEED pages|malloc [KIND]
 *
 * makes CALLS random calls, and checks after each what checks.c says. With `pages` each lent buffer lies against a page that cannot be touched,
 * with `malloc` it is a malloc of its own, for valgrind. The last line is 'N calls, M wrong'; the exit code is 0 only if M is 0 and all that must
 * occur did.
 *
 * A KIND shows that the checks can fail: of one call in eight something is spoiled after it, as a faulty library would have left it, and the exit
 * code is 0 only if each of these was found and no other. `refused` changes a word after a refusal, `kept` one that the call may not write,
 * `ticks` the ticks, `result` the result, `ledger` an unused word of the slots, `named` the contradicted output, of a closing to one that no
 * row has, `source` the source of a row that was added, with the count of Founded rows to fit; `outside` reads the word after a buffer's last, which
 * must end the program. */
#include "fuzz.h"
#include <inttypes.h>
#include <signal.h>
#include <stdio.h>
#include <stdlib.h>
#include <string.h>
#include <unistd.h>

enum spoil { NOTHING, REFUSED, KEPT, TICKS, RESULT, LEDGER, NAMED, SOURCE, OUTSIDE, SPOILS };
static const char *const spoil_names[SPOILS] = {"", "refused", "kept", "ticks", "result", "ledger", "named", "source", "outside"};

static uint64_t calls, wrong, spoiled, found;
static struct call call;

/* ---- Spoiling. Each is true if there was something to spoil. */
static bool spoil_word(unsigned buffers)
{
    int b = (int)below(BUFFERS);
    for (int tries = 0; tries < 100 && !(BIT(b) & buffers && call.given[b].length > 0); tries++)
        b = (int)below(BUFFERS);
    if (!(BIT(b) & buffers) || call.given[b].length == 0)
        return false;
    call.lent[b][below(call.given[b].length)] ^= UINT64_C(1) << below(64);
    return true;
}

/* Whether a transfer added the receiver's last row, of a giver whose rows have all one source; where born is at its end that cannot be told. */
static bool last_is_new(int head, const uint64_t *giver)
{
    const uint64_t *before = call.given[head].at;
    bool alike = giver[LEDGER_FOUNDED] == 0 || giver[LEDGER_FOUNDED] == giver[LEDGER_ROWS];
    return call.lent[head][LEDGER_ROWS] > before[LEDGER_ROWS] && before[LEDGER_BORN] < UINT64_MAX - MOST_ROWS && alike;
}

static void turn_source(int head, int slots, uint64_t position)
{
    uint64_t *source = call.lent[slots] + position * LEDGER_SLOT_WORDS + LEDGER_SLOT_SOURCE;
    *source ^= 1;
    call.lent[head][LEDGER_FOUNDED] += *source == LEDGER_SOURCE_FOUNDED ? 1 : UINT64_MAX;
}

static bool spoil_source(void)
{
    if (call.operation == OFFER && call.lent[ANSWER][LEDGER_CASE] == LEDGER_ADDED)
        turn_source(HEAD, SLOTS, call.lent[ANSWER][LEDGER_VALUE]);
    else if (call.operation == SEED && last_is_new(HEAD, call.given[STORE_HEAD].at))
        turn_source(HEAD, SLOTS, call.lent[HEAD][LEDGER_ROWS] - 1);
    else if (call.operation == DELIVER && last_is_new(STORE_HEAD, call.given[HEAD].at))
        turn_source(STORE_HEAD, STORE_SLOTS, call.lent[STORE_HEAD][LEDGER_ROWS] - 1);
    else
        return false;
    return true;
}

static bool spoil(enum spoil kind, uint64_t *result)
{
    const struct operation *o = &operations[call.operation];
    switch (kind) {
    case REFUSED: return *result != 0 && spoil_word(o->lends);
    case KEPT: return *result == 0 && spoil_word(o->lends & ~o->writes);
    case TICKS: return *result == 0 && ++call.lent[ANSWER][LEDGER_TICKS];
    case RESULT: *result = (*result + 1 + below(11)) % 12; return true;
    case LEDGER: return *result == 0 && o->lends & BIT(SLOTS) && call.lent[SLOTS][call.given[SLOTS].length - 2]++ == 0;
    case NAMED: return *result == 0 && (call.lent[ANSWER][LEDGER_CONTRADICTED] += call.operation == CLOSE ? 2 * MOST_ATOMS : 1 + below(3));
    case SOURCE: return *result == 0 && spoil_source();
    case OUTSIDE: return *(volatile uint64_t *)(call.lent[ANSWER] + LEDGER_ANSWER_WORDS) != 0;
    default: return false;
    }
}

/* ---- One call */
static void one(enum spoil kind)
{
    give(&call);
    lend(&call);
    uint64_t result = operations[call.operation].run(&call);
    bool is_spoiled = kind != NOTHING && chance(1, 8) && spoil(kind, &result);
    const char *fault = fault_of(&call, result);
    calls++;
    spoiled += is_spoiled;
    found += is_spoiled && fault != NULL;
    if (fault != NULL && !is_spoiled) {
        wrong++;
        printf("call %" PRIu64 ", %s, result %" PRIu64 ": %s\n", calls, operations[call.operation].name, result, fault);
    }
    if (fault == NULL) {
        occurred(&call, result);
        if (result == 0)
            keep(&call);
    }
    take_back(&call);
}

/* A step outside, where pages are fenced. */
static void stepped_outside(int number)
{
    char text[100];
    int length = snprintf(text, sizeof text, "call %" PRIu64 ", %s: a step outside a lent buffer\n", calls + 1, operations[call.operation].name);
    _exit(write(STDOUT_FILENO, text, (size_t)length) == length && number == SIGSEGV ? 1 : 2);
}

static enum spoil spoil_named(const char *name)
{
    int kind = 1;
    while (kind < SPOILS && strcmp(spoil_names[kind], name) != 0)
        kind++;
    if (kind == SPOILS) {
        printf("nothing is spoiled by '%s'\n", name);
        exit(2);
    }
    return (enum spoil)kind;
}

int main(int argc, char **argv)
{
    if (argc < 4) {
        puts("fuzz CALLS SEED pages|malloc [KIND]");
        return 2;
    }
    uint64_t wanted = strtoull(argv[1], NULL, 10);
    bool fenced = strcmp(argv[3], "malloc") != 0;
    enum spoil kind = argc > 4 ? spoil_named(argv[4]) : NOTHING;
    random_start(strtoull(argv[2], NULL, 10));
    lent_start(fenced);
    given_start();
    if (fenced)
        signal(SIGSEGV, stepped_outside);
    while (calls < wanted)
        one(kind);
    if (kind != NOTHING) {
        printf("%s: %" PRIu64 " spoiled, %" PRIu64 " found, %" PRIu64 " others wrong\n", spoil_names[kind], spoiled, found, wrong);
        return spoiled > 0 && found == spoiled && wrong == 0 ? 0 : 1;
    }
    uint64_t missing = show_occurred();
    printf("%" PRIu64 " calls, %" PRIu64 " wrong\n", calls, wrong);
    return wrong == 0 && missing == 0 ? 0 : 1;
}

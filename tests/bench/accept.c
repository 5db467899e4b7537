/* What the acceptance of a lent ledger costs: Begin, which is the acceptance and one flag, on a full tier with its postings built, beside one
 * read of the same buffers, a plain sum over all their words. Of each number of rows, size of rows and number of atoms two kinds of ledger:
 * rows whose atoms lie anywhere, laid out code by code where they are few, and rows whose atoms lie close together, which are packed. Each
 * time is the least of many calls on one ledger; the time of a first call is the middle one of 200 ledgers, each met once, since a processor
 * learns the branches that a ledger takes when it meets it again. The rows and their words are made here, by document 01 alone. A line that
 * ends in OVER is above what is asked.
 *     accept [calls]            prints the figures; so many calls on 64 rows, fewer on more
 *     accept calls KIND ROWS    makes that many calls on one ledger and prints nothing: for a profiler. KIND counts the lines of 64 rows from 0 */
#include "ledger.h"
#include <stdio.h>
#include <stdlib.h>
#include <string.h>
#include <time.h>

enum { MOST_CONDITIONS = 16, MOST_OUTPUTS = 64, MOST_POSITIONS = 4096, LEDGERS = 200, FIRST_ROWS = 256, LEAST_CALLS = 50 };

static uint64_t head[LEDGER_HEAD_WORDS], answer[LEDGER_ANSWER_WORDS];
static uint64_t slots[MOST_POSITIONS * LEDGER_SLOT_WORDS], postings[MOST_POSITIONS * LEDGER_POSTING_WORDS];
static int rows, packed_rows;

static size_t slots_length(void) { return (size_t)rows * LEDGER_SLOT_WORDS; }
static size_t postings_length(void) { return (size_t)rows * LEDGER_POSTING_WORDS; }

/* Over 4,096 atoms at most each atom has a place of its own in the check of the postings; over more, each row has one. */
struct kind { uint64_t atoms; int conditions, outputs, close; };
static const int row_counts[] = { 64, 256, 1024, 4096 };
static const uint64_t atom_counts[] = { 128, 4096, 8192, 32768, 200000, 1048576 };
/* At most so many times one read is what is asked. */
static const struct { int conditions, outputs; double most; } sizes[] = { { 4, 8, 4 }, { 16, 64, 17 } };
#define COUNT(list) ((int)(sizeof(list) / sizeof *(list)))
enum { KINDS = COUNT(sizes) * COUNT(atom_counts) * 2 };

static struct kind kind(int n)
{
    int size = n / 2 / COUNT(atom_counts);
    return (struct kind){ atom_counts[n / 2 % COUNT(atom_counts)], sizes[size].conditions, sizes[size].outputs, n % 2 };
}

/* xorshift64*: the same rows in every run. */
static uint64_t state;
static uint64_t below(uint64_t n)
{
    state ^= state >> 12;
    state ^= state << 25;
    state ^= state >> 27;
    return (state * 2685821657736338717u >> 33) % n;
}

static int ascending(const void *a, const void *b)
{
    uint64_t x = *(const uint64_t *)a, y = *(const uint64_t *)b;
    return (x > y) - (x < y);
}

/* n codes of distinct atoms from `from` on and below from + span, ascending, each in either sign. */
static void codes(uint64_t *c, int n, uint64_t from, uint64_t span)
{
    for (int i = 0; i < n;) {
        uint64_t atom = from + below(span);
        int known = 0;
        for (int j = 0; j < i; j++)
            known |= c[j] / 2 == atom;
        if (!known)
            c[i++] = 2 * atom + below(2);
    }
    qsort(c, n, sizeof *c, ascending);
}

/* The groups of n codes as words at `body`; how many there are. */
static int grouped(const uint64_t *c, int n, uint64_t *body)
{
    int w = 0;
    for (int i = 0; i < n; i++) {
        if (w == 0 || body[3 * w - 3] != c[i] / 128) {
            body[3 * w] = c[i] / 128;
            body[3 * w + 1] = body[3 * w + 2] = 0;
            w++;
        }
        body[3 * w - 1 - (c[i] & 1)] |= (uint64_t)1 << (c[i] / 2 % 64);
    }
    return w;
}

/* One row in its slot, and its postings from `at` on; the place after them. */
static int lay(const struct kind *k, int position, uint64_t *c, int at)
{
    uint64_t *slot = slots + (size_t)position * LEDGER_SLOT_WORDS, groups[3 * (MOST_CONDITIONS + MOST_OUTPUTS)];
    int n = k->conditions + k->outputs;
    int g = grouped(c, k->conditions, groups), w = g + grouped(c + k->conditions, k->outputs, groups + 3 * g);
    slot[0] = k->conditions;
    slot[1] = k->outputs;
    slot[6] = position + 1;
    if (3 * w < 2 * n) {
        packed_rows++;
        slot[2] = w;
        slot[3] = g;
        memcpy(slot + 8, groups, sizeof(uint64_t) * 3 * w);
    } else {
        memcpy(slot + 8, c, sizeof(uint64_t) * n);
    }
    for (int i = 0; i < n; i++)
        postings[at++] = c[i] / 2 * MOST_POSITIONS + position;
    return at;
}

/* A ledger: the conditions of `close` rows lie within a word, their outputs within two. */
static void build(const struct kind *k, int seed)
{
    const uint64_t limits[LEDGER_LIMIT_WORDS] = { k->atoms, rows, 16, 64, 64, 256, 131072, 131072, 8, 2 };
    memset(head, 0, sizeof head);
    memset(slots, 0, sizeof *slots * slots_length());
    memset(postings, 0, sizeof *postings * postings_length());
    memcpy(head, limits, sizeof limits);
    head[LEDGER_ROWS] = head[LEDGER_BORN] = head[LEDGER_FOUNDED] = rows;
    state = 88172645463325252u + 1000003u * (uint64_t)seed;
    packed_rows = 0;
    int at = 0;
    for (int p = 0; p < rows; p++) {
        uint64_t c[MOST_CONDITIONS + MOST_OUTPUTS];
        codes(c, k->conditions, k->close ? 64 * below(k->atoms / 64) : 0, k->close ? 64 : k->atoms);
        codes(c + k->conditions, k->outputs, k->close ? 64 * below(k->atoms / 64 - 1) : 0, k->close ? 128 : k->atoms);
        at = lay(k, p, c, at);
    }
    qsort(postings, at, sizeof *postings, ascending);
}

static uint64_t begin(void) { return ledger_begin(head, answer, slots, slots_length(), postings, postings_length()); }

/* One read, as a plain loop and as four quarters side by side: which is faster depends on the compiler, and the faster one counts. Both lengths
 * are multiples of 4. */
__attribute__((noinline)) static uint64_t sum(const uint64_t *w, size_t n)
{
    uint64_t s = 0;
    for (size_t i = 0; i < n; i++)
        s += w[i];
    return s;
}
__attribute__((noinline)) static uint64_t sum4(const uint64_t *w, size_t n)
{
    uint64_t s = 0;
    for (size_t i = 0, m = n / 4; i < m; i++)
        s += w[i] + w[m + i] + w[2 * m + i] + w[3 * m + i];
    return s;
}
static uint64_t sums(void) { return sum(slots, slots_length()) + sum(postings, postings_length()); }
static uint64_t sums4(void) { return sum4(slots, slots_length()) + sum4(postings, postings_length()); }

static double now(void)
{
    struct timespec t;
    clock_gettime(CLOCK_MONOTONIC, &t);
    return t.tv_sec * 1e9 + t.tv_nsec;
}

static volatile uint64_t kept;
static double least(uint64_t (*call)(void), int calls)
{
    double best = 1e18;
    for (int i = 0; i < calls; i++) {
        double from = now();
        kept = call();
        double took = now() - from;
        if (took < best)
            best = took;
    }
    return best;
}

static int shorter(const void *a, const void *b)
{
    double x = *(const double *)a, y = *(const double *)b;
    return (x > y) - (x < y);
}
static double first(const struct kind *k)
{
    static double took[LEDGERS];
    for (int i = 0; i < LEDGERS; i++) {
        build(k, i + 1);
        kept = sums();
        took[i] = least(begin, 1);
    }
    qsort(took, LEDGERS, sizeof *took, shorter);
    return took[LEDGERS / 2];
}

/* One line: nanoseconds a row, and in brackets times one read. */
static int line(const struct kind *k, double most, int calls)
{
    build(k, 0);
    if (begin() != 0 || answer[LEDGER_CASE] != LEDGER_DONE || head[LEDGER_FULL] != 1) {
        printf("Begin did not answer Done\n");
        return 1;
    }
    int packed = packed_rows;
    double accept = least(begin, calls), plain = least(sums, calls), quarters = least(sums4, calls), read = plain < quarters ? plain : quarters;
    head[LEDGER_STALE] = 1;
    memset(postings, 0, sizeof *postings * postings_length());
    if (begin() != 0) {
        printf("Begin did not answer Done without postings\n");
        return 1;
    }
    double stale = least(begin, calls);
    printf("%4d rows of %2d and %2d, %7d atoms, %5s, %4d packed: read %5.1f, accepted %6.1f (%5.2f), stale %6.1f (%5.2f)", rows, k->conditions,
           k->outputs, (int)k->atoms, k->close ? "close" : "any", packed, read / rows, accept / rows, accept / read, stale / rows, stale / read);
    if (rows == FIRST_ROWS) {
        double once = first(k);
        printf(", first call %6.1f (%5.2f)", once / rows, once / read);
    }
    printf("%s\n", accept > most * read ? " OVER" : "");
    fflush(stdout);
    return 0;
}

int main(int argc, char **argv)
{
    int calls = argc > 1 ? atoi(argv[1]) : 20000;
    if (argc > 3) {
        struct kind k = kind(atoi(argv[2]) % KINDS);
        rows = atoi(argv[3]);
        build(&k, 0);
        for (int i = 0; i < calls; i++)
            kept = begin();
        return kept != 0;
    }
    for (int r = 0; r < COUNT(row_counts); r++)
        for (int n = 0; n < KINDS; n++) {
            struct kind k = kind(n);
            rows = row_counts[r];
            int fewer = (int)((long)calls * row_counts[0] / rows);
            if (line(&k, sizes[n / 2 / COUNT(atom_counts)].most, fewer < LEAST_CALLS ? LEAST_CALLS : fewer))
                return 1;
        }
    return 0;
}

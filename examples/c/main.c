/* A ledger over 128 points with room for two rows: made, asked for a hit where there is no row, a point decided, two rules
 * offered, and the plan closed under them. Then another plan, that a rule's output is against: what the row requires, and by which output. */
#include "ledger.h"
#include <inttypes.h>
#include <stdio.h>

enum { ROWS = 2, POINTS = 128, REGION_WORDS = (POINTS + 63) / 64 };

static uint64_t slots[ROWS * LEDGER_SLOT_WORDS];
static uint64_t postings[ROWS * LEDGER_POSTING_WORDS];

int main(void)
{
    const uint64_t limits[LEDGER_LIMIT_WORDS] = {POINTS, ROWS, 16, 64, 1, 256, 131072, 131072, 8, 2};
    uint64_t head[LEDGER_HEAD_WORDS] = {0};
    uint64_t answer[LEDGER_ANSWER_WORDS] = {0};

    uint64_t refused = ledger_make(limits, 7, head, answer, slots, ROWS * LEDGER_SLOT_WORDS, postings, ROWS * LEDGER_POSTING_WORDS);
    if (refused != 0) {
        printf("make: refused by %" PRIu64 "\n", refused);
        return 1;
    }
    printf("make: ledger %" PRIu64 " with %" PRIu64 " rows, %" PRIu64 " reads left\n", head[LEDGER_NUMBER], head[LEDGER_ROWS], head[LEDGER_REMAINING]);

    /* There is no row yet, so no position is one. */
    refused = ledger_hit(head, answer, slots, ROWS * LEDGER_SLOT_WORDS, postings, ROWS * LEDGER_POSTING_WORDS, 0);
    printf("hit 0: refused by %" PRIu64 "\n", refused);

    /* Point 3 is held; then it cannot be cut. */
    uint64_t held[REGION_WORDS] = {0};
    uint64_t cut[REGION_WORDS] = {0};
    refused = ledger_decide(answer, POINTS, held, REGION_WORDS, cut, REGION_WORDS, 3, 1);
    printf("hold 3: refused by %" PRIu64 ", %" PRIu64 ", held %" PRIx64 "\n", refused, answer[LEDGER_CASE], held[0]);
    refused = ledger_decide(answer, POINTS, held, REGION_WORDS, cut, REGION_WORDS, 3, 0);
    printf("cut 3: refused by %" PRIu64 ", %" PRIu64 ", cut %" PRIx64 "\n", refused, answer[LEDGER_CASE], cut[0]);

    /* While point 3 is held, point 70 is cut (7 -> 140); then also point 71 (7 -> 142). The two are joined in one row. */
    const uint64_t conditions[] = {7}, first[] = {140}, second[] = {142};
    uint64_t meter[LEDGER_METER_WORDS] = {0, 1000};
    refused = ledger_offer(head, answer, meter, slots, ROWS * LEDGER_SLOT_WORDS, postings, ROWS * LEDGER_POSTING_WORDS, conditions, 1, first, 1,
                           LEDGER_SOURCE_FOUNDED);
    printf("offer 7 -> 140: refused by %" PRIu64 ", %" PRIu64 " at %" PRIu64 ", %" PRIu64 " rows\n", refused, answer[LEDGER_CASE], answer[LEDGER_VALUE], head[LEDGER_ROWS]);
    refused = ledger_offer(head, answer, meter, slots, ROWS * LEDGER_SLOT_WORDS, postings, ROWS * LEDGER_POSTING_WORDS, conditions, 1, second, 1,
                           LEDGER_SOURCE_FOUNDED);
    printf("offer 7 -> 142: refused by %" PRIu64 ", %" PRIu64 " at %" PRIu64 ", %" PRIu64 " rows\n", refused, answer[LEDGER_CASE], answer[LEDGER_VALUE], head[LEDGER_ROWS]);

    /* The plan with point 3 held, closed under the row. */
    uint64_t row_scratch[ROWS], point_scratch[POINTS];
    refused = ledger_close(head, answer, meter, slots, ROWS * LEDGER_SLOT_WORDS, postings, ROWS * LEDGER_POSTING_WORDS, held, REGION_WORDS, cut, REGION_WORDS,
                           row_scratch, ROWS, point_scratch, POINTS);
    printf("close: refused by %" PRIu64 ", %" PRIu64 "\n", refused, answer[LEDGER_CASE]);
    for (uint64_t point = 0; point < POINTS; point++) {
        if ((held[point / 64] >> point % 64 & 1) != 0)
            printf("point %" PRIu64 " held\n", point);
        if ((cut[point / 64] >> point % 64 & 1) != 0)
            printf("point %" PRIu64 " cut\n", point);
    }

    /* A plan with points 70 and 71 held: the row would cut both, so point 3 cannot be held. The lesser of the two outputs is named. */
    uint64_t other_held[REGION_WORDS] = {0, 1 << 6 | 1 << 7}, other_cut[REGION_WORDS] = {0};
    refused = ledger_deduce(head, answer, meter, slots, ROWS * LEDGER_SLOT_WORDS, postings, ROWS * LEDGER_POSTING_WORDS, 0,
                            other_held, REGION_WORDS, other_cut, REGION_WORDS);
    if (refused == 0 && answer[LEDGER_CASE] == LEDGER_REQUIRE)
        printf("deduce: %" PRIu64 " is required, %" PRIu64 " contradicted\n", answer[LEDGER_VALUE], answer[LEDGER_CONTRADICTED]);
    refused = ledger_close(head, answer, meter, slots, ROWS * LEDGER_SLOT_WORDS, postings, ROWS * LEDGER_POSTING_WORDS, other_held, REGION_WORDS,
                           other_cut, REGION_WORDS, row_scratch, ROWS, point_scratch, POINTS);
    printf("close: refused by %" PRIu64 ", %" PRIu64 ", cut %" PRIx64 "\n", refused, answer[LEDGER_CASE], other_cut[0]);
    if (refused == 0 && answer[LEDGER_VALUE] == LEDGER_NAMED)
        printf("contradicted: %" PRIu64 "\n", answer[LEDGER_CONTRADICTED]);
    return 0;
}

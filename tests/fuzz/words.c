/* Words of the test's own, and random numbers (splitmix64). */
#include "fuzz.h"
#include <stdio.h>
#include <stdlib.h>
#include <string.h>

void words_resize(struct words *w, size_t length)
{
    if (length > w->room) {
        w->at = realloc(w->at, length * sizeof(uint64_t));
        w->room = length;
        if (w->at == NULL) {
            puts("no memory");
            exit(2);
        }
    }
    if (length > w->length)
        memset(w->at + w->length, 0, (length - w->length) * sizeof(uint64_t));
    w->length = length;
}

void words_copy(struct words *to, const struct words *from)
{
    words_resize(to, from->length);
    if (from->length > 0)
        memcpy(to->at, from->at, from->length * sizeof(uint64_t));
}

static uint64_t state;

void random_start(uint64_t seed) { state = seed; }

uint64_t random_word(void)
{
    uint64_t word = state += 0x9e3779b97f4a7c15;
    word = (word ^ (word >> 30)) * 0xbf58476d1ce4e5b9;
    word = (word ^ (word >> 27)) * 0x94d049bb133111eb;
    return word ^ (word >> 31);
}

uint64_t below(uint64_t end) { return random_word() % end; }
bool chance(uint64_t part, uint64_t whole) { return below(whole) < part; }
uint64_t pick(const uint64_t *list, size_t length) { return list[below(length)]; }

uint64_t edge(void)
{
    uint64_t end = PICK(0, 1, 2, 3, 16, 53, 64, 80, 169, 512, MOST_ROWS, HALF, SPAN, MOST_ATOMS / 64, MOST_ATOMS, 2 * MOST_ATOMS,
                        UINT64_C(4096) * MOST_ATOMS, UINT64_C(1) << 52, UINT64_C(1) << 61, UINT64_C(1) << 63, UINT64_MAX);
    switch (below(5)) {
    case 0: return end - 1;
    case 1: return end + 1;
    case 2: return random_word();
    case 3: return below(200);
    default: return end;
    }
}

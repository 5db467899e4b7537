/* The memory that calls are lent. With fences each buffer lies flush against a page that cannot be touched, at its end or at its start, so that a
 * read or a write outside stops the program; on the other side stands a margin, a word that must stay. Without, it is a malloc of exactly
 * its length, for valgrind to watch. A buffer of no words is a pointer to nothing that can be read. */
#define _GNU_SOURCE
#include "fuzz.h"
#include <stdio.h>
#include <stdlib.h>
#include <string.h>
#include <sys/mman.h>
#include <unistd.h>

static const uint64_t margin = 0xa5c3a5c3a5c3a5c3;
/* The largest that is ever lent: scratch for the most atoms, which is more than the slots of a whole tier, and some words over. */
static const size_t most = (size_t)(MOST_ATOMS + 8 * LEDGER_SLOT_WORDS) * sizeof(uint64_t);

static bool fences;
static size_t page, inner;
static char *area[BUFFERS];
static bool at_end[BUFFERS];

void lent_start(bool fenced)
{
    fences = fenced;
    if (!fenced)
        return;
    page = (size_t)sysconf(_SC_PAGESIZE);
    inner = (most + sizeof margin + page - 1) / page * page;
    for (int b = 0; b < BUFFERS; b++) {
        area[b] = mmap(NULL, inner + 2 * page, PROT_NONE, MAP_PRIVATE | MAP_ANONYMOUS, -1, 0);
        if (area[b] == MAP_FAILED || mprotect(area[b] + page, inner, PROT_READ | PROT_WRITE) != 0) {
            puts("no memory");
            exit(2);
        }
    }
}

/* The word on the side without a fence. */
static uint64_t *margin_of(const struct call *c, int b) { return at_end[b] ? c->lent[b] - 1 : c->lent[b] + c->given[b].length; }

static uint64_t *place(int b, size_t bytes)
{
    if (!fences)
        return malloc(bytes);
    at_end[b] = chance(1, 2);
    return (uint64_t *)(void *)(area[b] + page + (at_end[b] ? inner - bytes : 0));
}

void lend(struct call *c)
{
    for (int b = 0; b < BUFFERS; b++) {
        if (!(operations[c->operation].lends & BIT(b)))
            continue;
        size_t bytes = c->given[b].length * sizeof(uint64_t);
        if (bytes > most) {
            puts("a buffer beyond the room for it");
            exit(2);
        }
        c->lent[b] = place(b, bytes);
        if (bytes > 0)
            memcpy(c->lent[b], c->given[b].at, bytes);
        if (fences)
            *margin_of(c, b) = margin;
    }
}

bool margins_kept(const struct call *c)
{
    bool kept = true;
    for (int b = 0; b < BUFFERS; b++)
        if (fences && (operations[c->operation].lends & BIT(b)))
            kept = kept && *margin_of(c, b) == margin;
    return kept;
}

void take_back(struct call *c)
{
    for (int b = 0; b < BUFFERS; b++) {
        if (!fences && (operations[c->operation].lends & BIT(b)))
            free(c->lent[b]);
        c->lent[b] = NULL;
    }
}

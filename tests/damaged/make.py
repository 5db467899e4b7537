#!/usr/bin/env python3
"""Writes crates/damaged/stdin and crates/damaged/stdout: good ledgers, damaged copies of them, and the refusal that document 01 asks for, with
what document 02 changes in it: atoms up to 1,048,576, and the source of a row.

The expected numbers come from the reading of the documents in this file alone; no code of the crates and none of the Rust is called.

    tests/damaged/make.py          writes both files
    tests/damaged/make.py --check  exits with 1 if they are not what would be written

A ledger with all that a call is lent is one list of 1,700 words, laid out as below. The input has such a list, then its damaged copies,
each as the number of changed words, then index and value of each; 999 ends the copies of a ledger. The output has a line a copy, twelve
numbers with nothing between them: what each function of include/ledger.h, in its order, refuses the copy by, 0 for none, and then 1 if a
refused call changed a lent word: 0. Of them only an offer's can have two digits, 11.
"""
import os
import sys

WORD = 2**64 - 1
SLOT, POST = 169, 80
SOURCE = SLOT - 1
MOST_ATOMS = 1048576

# the header of the ledger, which is the tier in seed and deliver; behind it that of the store
(ATOMS, TIER, CONDITIONS_MOST, OUTPUTS_MOST, FLOOR, ATTEMPTS_MOST, WORK, SHARE_WORK, SHARE_CONDITIONS, SHARE_HITS, NUMBER, ROWS, BORN,
 EPOCH, ATTEMPTS, REMAINING, SHARING, EVICTED, DELIVERIES, SEEDED, STALE, FULL, MARK, MARK_NUMBER, MARK_BORN, FOUNDED, HEAD) = range(27)
STORE = HEAD
# the answer (4 words), the meter (2), the cursor (4), make's number, a position or the source of an offer, the atom and the value of decide
ANSWER, METER, CURSOR, POSITION, ATOM, VALUE = 52, 56, 58, 62, 63, 64
# the lengths of the lent slices; scratch has no words here: as many words as its length says are lent, none of them 0
(SLOTS_LEN, POSTINGS_LEN, HELD_LEN, CUT_LEN, CONDITIONS_LEN, OUTPUTS_LEN, GIVEN_LEN, FOUND_LEN, STORE_SLOTS_LEN, STORE_POSTINGS_LEN,
 ROW_SCRATCH_LEN, ATOM_SCRATCH_LEN, LENGTHS_END) = range(65, 78)
# the slices: GIVEN are the atoms that candidates is given, FOUND its answer buffer
GIVEN, FOUND, CONDITIONS, OUTPUTS, HELD, CUT, SLOTS, POSTINGS, STORE_SLOTS, STORE_POSTINGS, SIZE = (
    80, 90, 100, 120, 190, 240, 290, 830, 1140, 1500, 1700)
# of each slice: where its length stands, and the room that it has
ROOM = {GIVEN: (GIVEN_LEN, 10), FOUND: (FOUND_LEN, 10), CONDITIONS: (CONDITIONS_LEN, 20), OUTPUTS: (OUTPUTS_LEN, 70), HELD: (HELD_LEN, 50),
        CUT: (CUT_LEN, 50), SLOTS: (SLOTS_LEN, 540), POSTINGS: (POSTINGS_LEN, 310), STORE_SLOTS: (STORE_SLOTS_LEN, 360),
        STORE_POSTINGS: (STORE_POSTINGS_LEN, 200)}
SCRATCH_ROOM = {ROW_SCRATCH_LEN: 10, ATOM_SCRATCH_LEN: 3210}


# ---- Records: row, groups, form, slot, postings
def groups(codes):
    """Neighbours whose atoms lie in one word."""
    out = []
    for c in codes:
        if out and out[-1][0] // 128 == c // 128:
            out[-1].append(c)
        else:
            out.append([c])
    return out


def packed(conditions, outputs):
    return 3 * (len(groups(conditions)) + len(groups(outputs))) < 2 * (len(conditions) + len(outputs))


def group_words(group):
    present = sum(1 << (c // 2 % 64) for c in group if c % 2 == 1)
    absent = sum(1 << (c // 2 % 64) for c in group if c % 2 == 0)
    return [group[0] // 128, present, absent]


def slot_of(conditions, outputs, hits, unshared, born, delivered, source):
    if packed(conditions, outputs):
        first, second = groups(conditions), groups(outputs)
        body = [w for g in first + second for w in group_words(g)]
        counts = [len(first) + len(second), len(first)]
    else:
        body = conditions + outputs
        counts = [0, 0]
    words = [len(conditions), len(outputs)] + counts + [hits, unshared, born, delivered] + body
    return words + [0] * (SOURCE - len(words)) + [source]


def postings_of(rows):
    out = []
    for position, (conditions, outputs) in enumerate(rows):
        atoms = [c // 2 for c in conditions] + sorted({c // 2 for c in outputs})
        out += [a * 4096 + position for a in atoms]
    return sorted(out)


def is_row(atoms, conditions, outputs):
    if len(conditions) > 16 or len(outputs) > 64:
        return False
    if any(c // 2 >= atoms for c in conditions + outputs):
        return False
    rising = all(a // 2 < b // 2 for a, b in zip(conditions, conditions[1:]))
    return rising and all(a < b for a, b in zip(outputs, outputs[1:]))


def codes_of(words):
    """The codes of groups of three words, or none where they are no groups: ascending words, each with some bit."""
    out, last = [], -1
    for i in range(0, len(words), 3):
        word, present, absent = words[i:i + 3]
        if word <= last or word >= MOST_ATOMS // 64 or present | absent == 0:
            return None
        last = word
        for bit in range(64):
            if absent >> bit & 1:
                out.append(2 * (64 * word + bit))
            if present >> bit & 1:
                out.append(2 * (64 * word + bit) + 1)
    return out


def row_in(words):
    """The row whose slot these words are, or none."""
    conditions, outputs, total, first, hits, unshared, born, delivered = words[:8]
    if conditions > 16 or outputs > 64 or total * 3 > 160 or first > total:
        return None
    if total == 0:
        row = (words[8:8 + conditions], words[8 + conditions:8 + conditions + outputs])
    else:
        row = (codes_of(words[8:8 + 3 * first]), codes_of(words[8 + 3 * first:8 + 3 * total]))
        if row[0] is None or row[1] is None:
            return None
    if delivered > 1 or words[SOURCE] > 1 or slot_of(*row, hits, unshared, born, delivered, words[SOURCE]) != words:
        return None
    return row


# ---- refusals
def part(w, at):
    return w[at:at + w[ROOM[at][0]]]


def tier_of(w):
    """The header, slots and postings of the ledger, which is the tier in seed and deliver."""
    return w[:HEAD], part(w, SLOTS), part(w, POSTINGS)


def store_of(w):
    return w[STORE:STORE + HEAD], part(w, STORE_SLOTS), part(w, STORE_POSTINGS)


def limits_ok(head):
    return 1 <= head[ATOMS] <= MOST_ATOMS and 1 <= head[TIER] <= 4096 and head[CONDITIONS_MOST] <= 16 and head[OUTPUTS_MOST] <= 64


def rows_in(head, slots):
    rows = []
    for position in range(head[ROWS]):
        words = slots[SLOT * position:SLOT * position + SLOT]
        row = row_in(words)
        if row is None or not is_row(head[ATOMS], *row) or not 1 <= words[6] <= head[BORN]:
            return None
        rows.append(row)
    return rows


def contents_ok(head, slots, postings):
    if head[ROWS] > head[TIER] or head[EPOCH] >= head[TIER] or head[ATTEMPTS] > head[ATTEMPTS_MOST]:
        return False
    rows = rows_in(head, slots)
    if rows is None or any(slots[SLOT * head[ROWS]:]):
        return False
    if head[FOUNDED] != sum(slots[SLOT * position + SOURCE] == 0 for position in range(head[ROWS])):
        return False
    filed = [] if head[STALE] else postings_of(rows)
    return postings == filed + [0] * (len(postings) - len(filed))


def lengths_ok(head, slots, postings):
    return len(slots) == SLOT * head[TIER] and len(postings) == POST * head[TIER]


def accept(ledger, others=True):
    """1, 2 or 3, or 0 for none; others is whether the other buffers have their lengths."""
    if not limits_ok(ledger[0]):
        return 1
    if not lengths_ok(*ledger) or not others:
        return 2
    return 0 if contents_ok(*ledger) else 3


def offer_ok(w):
    conditions, outputs = part(w, CONDITIONS), part(w, OUTPUTS)
    return (is_row(w[ATOMS], conditions, outputs) and len(conditions) <= w[CONDITIONS_MOST] and len(outputs) <= w[OUTPUTS_MOST])


def region_ok(atoms, w):
    if not 1 <= atoms <= MOST_ATOMS:
        return False
    words = (atoms + 63) // 64
    if w[HELD_LEN] != words or w[CUT_LEN] != words:
        return False
    held, cut = w[HELD:HELD + words], w[CUT:CUT + words]
    if any(a & b for a, b in zip(held, cut)):
        return False
    joined = sum((a | b) << (64 * i) for i, (a, b) in enumerate(zip(held, cut)))
    return joined >> atoms == 0


def cursor_ok(row, cursor):
    step, word, present, absent = cursor
    conditions, outputs = row
    if not packed(conditions, outputs):
        return step <= len(outputs) and word == present == absent == 0
    found = groups(outputs)
    if step > len(found):
        return False
    if step == 0:
        return word == present == absent == 0
    index, had, had_not = group_words(found[step - 1])
    return word == index and present & ~had == 0 and absent & ~had_not == 0


def expected(w):
    make = 0
    if not limits_ok(w):
        make = 1
    elif not lengths_ok(*tier_of(w)):
        make = 2
    begin = accept(tier_of(w))
    hit = begin or (5 if w[POSITION] >= w[ROWS] else 0)
    decide = 0 if region_ok(w[ATOMS], w) else 6
    deduce = hit or decide
    step = deduce
    if step == 0:
        step = 0 if cursor_ok(rows_in(w, part(w, SLOTS))[w[POSITION]], w[CURSOR:CURSOR + 4]) else 8
    offer = begin or (4 if not offer_ok(w) else 11 if w[POSITION] > 1 else 0)
    candidates = accept(tier_of(w), w[FOUND_LEN] == w[TIER])
    close = accept(tier_of(w), w[ROW_SCRATCH_LEN] == w[TIER] and w[ATOM_SCRATCH_LEN] == w[ATOMS]) or decide
    transfer = begin or accept(store_of(w)) or (7 if w[ATOMS] != w[STORE + ATOMS] else 0)
    return [make, begin, hit, deduce, step, decide, offer, candidates, close, transfer, transfer, 0]


# ---- good ledgers
def put_ledger(w, places, atoms, tier, number, rows, stale):
    """rows: (conditions, outputs, hits, unshared, born, delivered, source)."""
    head, slots, postings = places
    w[head:head + HEAD] = [
        atoms, tier, 16, 64, 1, 9, 100, 100, 8, 2, number, len(rows), 5, tier - 1, 9, 50, 60, 0, 1, 2, int(stale), 1, 1, 3, 4,
        [row[6] for row in rows].count(0)
    ]
    w[ROOM[slots][0]], w[ROOM[postings][0]] = SLOT * tier, POST * tier
    for p, row in enumerate(rows):
        w[slots + SLOT * p:slots + SLOT * p + SLOT] = slot_of(*row)
    if not stale:
        filed = postings_of([row[:2] for row in rows])
        w[postings:postings + len(filed)] = filed


def put_part(w, at, words):
    w[ROOM[at][0]] = len(words)
    w[at:at + len(words)] = words


def ledger(atoms, tier, rows, stale, position, held, cut, cursor, atom, given, offered, store):
    """A ledger with all that a call is lent; store: its rows that may be, its rows, and whether it is stale. Over more atoms than there is
    room for in a region and in scratch neither has a word."""
    w = [0] * SIZE
    put_ledger(w, (0, SLOTS, POSTINGS), atoms, tier, 7, rows, stale)
    put_ledger(w, (STORE, STORE_SLOTS, STORE_POSTINGS), atoms, store[0], 3, store[1], store[2])
    w[ANSWER:METER], w[METER:CURSOR], w[CURSOR:POSITION] = [11] * (METER - ANSWER), [3, 100], cursor
    w[POSITION], w[ATOM], w[VALUE] = position, atom, 1
    far = atoms > SCRATCH_ROOM[ATOM_SCRATCH_LEN]
    w[ROW_SCRATCH_LEN], w[ATOM_SCRATCH_LEN] = tier, 0 if far else atoms
    words = 0 if far else (atoms + 63) // 64
    put_part(w, HELD, [0] * words)
    put_part(w, CUT, [0] * words)
    put_part(w, GIVEN, given)
    put_part(w, FOUND, [11] * tier)
    put_part(w, CONDITIONS, offered[0])
    put_part(w, OUTPUTS, offered[1])
    for a in held:
        w[HELD + a // 64] |= 1 << (a % 64)
    for a in cut:
        w[CUT + a // 64] |= 1 << (a % 64)
    return w


SCALAR = ([7, 200], [6, 7, 140], 3, 1, 2, 0, 0)
PACKED = ([1, 3, 8], [2, 3, 140, 142, 250], 0, 0, 5, 1, 1)
# 80 literals with 80 postings: in 66 groups, and in the most groups that a slot can have, 53
LONG_SCALAR = ([128 * i + 1 for i in range(16)],
               [128 * i + 2 for i in range(36)] + [128 * i + 2 * j for i in range(36, 50) for j in range(2)], 0, 9, 1, 0, 1)
LONG_PACKED = ([128 * i + 4 for i in range(16)],
               [128 * i + 2 * j for i in range(27) for j in range(2)] + [128 * i + 7 for i in range(27, 37)], WORD, WORD, 5, 1, 0)
assert packed(*PACKED[:2]) and not packed(*SCALAR[:2]) and not packed(*LONG_SCALAR[:2]) and packed(*LONG_PACKED[:2])
# rows of many atoms: a code and the one 65,536 above it, and the last atom; groups on both sides of 32,768 atoms, and the last
FAR_SCALAR = ([7, 65543], [140, 65676, 2 * MOST_ATOMS - 1], 3, 1, 2, 0, 1)
FAR_PACKED = ([65531, 65535, 65537], [2 * MOST_ATOMS - 128 + i for i in (0, 1, 5, 126, 127)], 0, 0, 5, 1, 0)
# the same around 32,768 alone, of which the last atom is 32,768 itself
HALF_SCALAR = ([7, 65535], [65534, 65537], 3, 1, 2, 0, 0)
HALF_PACKED = ([65531, 65533, 65537], [65529, 65535, 65536, 65537], 0, 0, 5, 1, 1)
assert not packed(*FAR_SCALAR[:2]) and packed(*FAR_PACKED[:2]) and not packed(*HALF_SCALAR[:2]) and packed(*HALF_PACKED[:2])
NONE = [0, 0, 0, 0]
FAR_LEDGERS = [
    ledger(MOST_ATOMS, 2, [FAR_SCALAR, FAR_PACKED], False, 1, [], [], NONE, 0, [32768, MOST_ATOMS - 1],
           ([2 * MOST_ATOMS - 2], [65543, 2 * MOST_ATOMS - 1]), (1, [FAR_PACKED], False)),
    ledger(32769, 2, [HALF_PACKED, HALF_SCALAR], False, 0, [], [], NONE, 0, [32768], ([65537], [65536, 65537]), (2, [HALF_SCALAR], False)),
]
LEDGERS = [
    ledger(130, 2, [SCALAR, PACKED], False, 1, [0, 129], [70], [2, 1, 0, 1 << 6], 5, [3, 70, 3, 500], ([3, 258], [4, 5, 140]),
           (2, [PACKED, SCALAR], False)),
    ledger(130, 3, [PACKED, SCALAR], True, 1, [0, 64], [], [3, 0, 0, 0], 129, [], ([], []), (1, [SCALAR], True)),
    ledger(64, 1, [([], [], 1, 0, 1, 0, 0)], False, 0, [], [63], NONE, 0, [0], ([127], list(range(64))), (2, [], True)),
    ledger(1, 1, [], True, 0, [0], [], NONE, 0, [0, 0], ([1], [0, 1]), (1, [([0], [1], 0, 0, 5, 1, 1)], False)),
    ledger(3200, 2, [LONG_SCALAR, LONG_PACKED], False, 0, [3199], [0, 64], [64, 0, 0, 0], 3199, [], LONG_SCALAR[:2],
           (2, [LONG_PACKED], False)),
]


def values(i, v):
    """What a word is changed to: neighbours, small numbers, a bit at either end, the greatest number; of a limit the ends of all ranges."""
    tries = [1, 1 << 63, WORD]
    if v != 0:
        tries += [0, 2, v + 1, v - 1, v * 2, v ^ 1 << 63, v ^ 1 << 5, v + 4096, 64, 130]
    if i < NUMBER or STORE <= i < STORE + NUMBER:
        tries += [0, 16, 17, 64, 65, 4096, 4097, 32768, 32769, MOST_ATOMS, MOST_ATOMS + 1]
    return sorted({x & WORD for x in tries} - {v})


def within(w):
    """A copy that the lists can hold: lengths up to the room there is."""
    return all(w[length] <= room for length, room in list(ROOM.values()) + list(SCRATCH_ROOM.items()))


def single(w, parts):
    """One word changed: any that is no slice's, and any of these slices."""
    for span in [range(LENGTHS_END)] + [range(at, at + w[ROOM[at][0]]) for at in parts]:
        for i in span:
            for v in values(i, w[i]):
                yield [(i, v)]


def written(at, words):
    return [(at + i, v) for i, v in enumerate(words)]


def raw_slot(conditions, outputs, total, first, body):
    return written(SLOTS, ([conditions, outputs, total, first, 3, 1, 2, 0] + body + [0] * SLOT)[:SLOT])


def codes_slots():
    """First slots that hold codes, one a word, though their row may be none, or one to be packed."""
    for conditions, outputs in [
            ([7, 200], [6, 7, 258]),    # a row
            ([7], [140, 142]),    # three literals in two groups
            ([7, 200], [6, 7, 260]),    # no atom of 130
            ([7, 260], [6, 7, 140]),
            ([200, 7], [6, 7, 140]),    # conditions descend
            ([200, 200], [6, 140, 256]),
            ([200, 201], [6, 140, 256]),    # both signs of an atom
            ([7, 200], [7, 6, 140]),    # outputs descend
            ([7, 200], [6, 140, 140])]:
        assert not packed(conditions, outputs)
        yield raw_slot(len(conditions), len(outputs), 0, 0, conditions + outputs)
    yield raw_slot(3, 5, 0, 0, PACKED[0] + PACKED[1])


def groups_slots():
    """First slots that hold groups, though their row may be none, or one not to be packed."""
    rest = [0, 2, 2, 1, 0, 1 << 6 | 1 << 7 | 1 << 61]
    for outputs, total, body in [
            (5, 3, [0, 3, 16] + rest),    # a row
            (6, 4, [0, 3, 16] + rest + [2, 2, 0]),    # a row, with atom 129
            (6, 4, [0, 3, 16] + rest + [2, 4, 0]),    # no atom of 130
            (5, 4, [0, 3, 16] + rest + [2, 0, 0]),    # a group of nothing
            (5, 3, [0, 3, 2] + rest),    # a condition in both signs
            (5, 3, [0, 3, 16] + rest[3:] + rest[:3]),    # groups descend
            (5, 4, [0, 3, 16] + rest[:3] + [1, 0, 1 << 6, 1, 0, 1 << 7 | 1 << 61]),    # two groups of a word
            (6, 3, [0, 3, 16] + rest),    # counts of other rows
            (4, 3, [0, 3, 16] + rest)]:
        yield raw_slot(3, outputs, total, 1, body)
    for conditions, outputs in [SCALAR[:2], ([7], [140, 142])]:
        first, second = groups(conditions), groups(outputs)
        body = [x for g in first + second for x in group_words(g)]
        yield raw_slot(len(conditions), len(outputs), len(first) + len(second), len(first), body)


def several(w):
    """On the first ledger: damage that takes more than a word, and changes of more than a word that are none."""
    second = SLOTS + SLOT
    filed = postings_of([SCALAR[:2], PACKED[:2]])
    n = len(filed)

    def posted(postings):
        return written(POSTINGS, (postings + [0] * n)[:max(n, len(postings))])

    yield []
    # other words in the first slot: without postings, so that nothing else is wrong
    for slot in list(codes_slots()) + list(groups_slots()):
        yield [(STALE, 1)] + posted([]) + slot
    # the postings: two exchanged, one gone, one twice and so one too many, one in place of its neighbour
    for i in range(n - 1):
        yield posted(filed[:i] + [filed[i + 1], filed[i]] + filed[i + 2:])
        yield posted(filed[:i] + filed[i + 1:])
        yield posted(filed[:i + 1] + filed[i:])
        yield posted(filed[:i + 1] + [filed[i]] + filed[i + 2:])
    # stale, with and without postings; no postings, and not stale
    yield [(STALE, 1)]
    yield [(STALE, 1)] + posted([])
    yield posted([])
    # a longer row, with the postings of the old one and with its own
    for postings in (filed, postings_of([(SCALAR[0], SCALAR[1] + [258]), PACKED[:2]])):
        yield [(SLOTS + 1, 4), (SLOTS + 13, 258)] + posted(postings)
    # the sources: one that is none, the count that is of others, both at once and neither; one row of each source stands there
    for founded in (0, 1, 2, 3, WORD):
        for one in (0, 1, 2, WORD):
            for other in (0, 1, 2):
                yield [(FOUNDED, founded), (SLOTS + SOURCE, one), (second + SOURCE, other)]
                yield [(STORE + FOUNDED, founded), (STORE_SLOTS + SOURCE, one), (STORE_SLOTS + SLOT + SOURCE, other)]
    # slots of as many words as they had without a source, of either ledger
    yield [(SLOTS_LEN, 168 * w[TIER])]
    yield [(STORE_SLOTS_LEN, 168 * w[STORE + TIER])]
    # one row less, with and without its words and postings, or with its source alone
    yield [(ROWS, 1)] + written(second, [0] * SOURCE)
    yield [(ROWS, 1)]
    yield [(ROWS, 1)] + written(second, [0] * SLOT)
    first = [(ROWS, 1), (POSITION, 0), (CURSOR, 0), (CURSOR + 1, 0), (CURSOR + 3, 0)]
    yield first + written(second, [0] * SLOT) + posted(postings_of([SCALAR[:2]]))
    # a tier of fewer rows and of more, with lengths to fit
    for tier in (0, 1, 3):
        yield [(TIER, tier), (SLOTS_LEN, SLOT * tier), (POSTINGS_LEN, POST * tier), (FOUND_LEN, tier), (ROW_SCRATCH_LEN, tier)]


def offered(w):
    """On the first ledger: lists that are no row over 130 atoms, and some that are; also where fewer conditions or outputs may be."""
    first, second = [2 * a for a in range(16)], list(range(64))
    for conditions, outputs in [
            ([], []),
            (first, second),
            (first + [32], []),    # one too many
            ([], second + [64]),
            ([258], [259]),
            ([260], []),    # no atom of 130
            ([], [260]),
            ([WORD], []),
            ([3, 2], []),    # conditions descend
            ([2, 2], []),
            ([2, 3], []),    # both signs of an atom
            ([], [3, 2]),    # outputs descend
            ([], [2, 2]),
            ([], [2, 3])]:
        lists = [(CONDITIONS_LEN, len(conditions)), (OUTPUTS_LEN, len(outputs))]
        lists += written(CONDITIONS, conditions) + written(OUTPUTS, outputs)
        yield lists
        for source in (0, 2, WORD):
            yield [(POSITION, source)] + lists
        for most in (0, 1, 2):
            yield [(CONDITIONS_MOST, most)] + lists
            yield [(OUTPUTS_MOST, most)] + lists


def faults(w):
    """On the first ledger: one fault for every refusal, and for every lent thing that it is about."""
    return [
        [(ATOMS, 0)], [(ATOMS, MOST_ATOMS + 1)], [(TIER, 0)], [(OUTPUTS_MOST, 65)], [(SLOTS_LEN, 336)], [(SLOTS_LEN, 0)], [(POSTINGS_LEN, 161)],
        [(FOUND_LEN, 1)], [(FOUND_LEN, 3)], [(ROW_SCRATCH_LEN, 1)], [(ROW_SCRATCH_LEN, 3)], [(ATOM_SCRATCH_LEN, 129)],
        [(ATOM_SCRATCH_LEN, 131)], [(SLOTS + 7, 2)], [(SLOTS + SOURCE, 2)], [(FOUNDED, 2)], [(POSTINGS, 0)], [(EPOCH, 2)], [(ROWS, 3)], [(CONDITIONS, 259)], [(OUTPUTS_LEN, 70)],
        [(POSITION, 2)], [(POSITION, WORD)], [(HELD_LEN, 2)], [(CUT + 2, 2)], [(CURSOR, 3)], [(CURSOR + 2, 1)], [(STORE + ATOMS, 0)],
        [(STORE + TIER, 4097)], [(STORE_SLOTS_LEN, 339)], [(STORE_POSTINGS_LEN, 0)], [(STORE + BORN, 4)], [(STORE_SLOTS + SLOT + 1, 0)], [(STORE + FOUNDED, 0)],
        [(STORE + ATOMS, 131)], [(ATOMS, 131), (ATOM_SCRATCH_LEN, 131)]
    ]


def pairs(w):
    """Every two of them at once: the order of the refusals."""
    every = faults(w)
    for i, one in enumerate(every):
        for other in every[i + 1:]:
            if not {k for k, _ in one} & {k for k, _ in other}:
                yield one + other


def moved(w, at):
    """Words of this slice that are not 0, each another: also one with the same low 16 bits, and one with the same low 32."""
    for i in range(at, at + w[ROOM[at][0]]):
        if w[i] != 0:
            for v in values(i, w[i]) + [w[i] + 65536 & WORD, w[i] + 2**32 & WORD]:
                yield [(i, v)]


def far(w):
    """On a ledger of many atoms: other numbers of atoms, codes that are none and codes that are fit, other words of slots and postings."""
    yield []
    for atoms in (0, 128, 32768, 32769, 65536, MOST_ATOMS - 1, MOST_ATOMS, MOST_ATOMS + 1, WORD):
        for head in (0, STORE):
            yield [(head + ATOMS, atoms)]
        yield [(ATOMS, atoms), (STORE + ATOMS, atoms)]
    for code in (7, 65534, 65535, 65536, 65537, 65538, 65543, 2 * MOST_ATOMS - 1, 2 * MOST_ATOMS, 2**32 + 7, 2**32 + 65537, WORD):
        yield [(CONDITIONS, code)]
        yield [(OUTPUTS + 1, code)]
    # sources that are 0 or 1 in their low 16 or 32 bits
    for source in (0, 1, 65536, 65537, 2**32, 2**32 + 1):
        yield [(POSITION, source)]
    for at in (CONDITIONS, OUTPUTS, SLOTS, POSTINGS, STORE_SLOTS, STORE_POSTINGS):
        yield from moved(w, at)


def changed(w, changes):
    out = list(w)
    for i, v in changes:
        out[i] = v
    return out


def copies(number, w):
    if number >= len(LEDGERS):
        return list(far(w))
    if number != 0:
        # the store's slices are as the ledger's: their words are changed on the first ledger alone
        return [[]] + list(single(w, [at for at in ROOM if at < STORE_SLOTS]))
    return list(several(w)) + list(offered(w)) + list(pairs(w)) + list(single(w, ROOM))


def write():
    lines, answers = [], []
    for number, w in enumerate(LEDGERS + FAR_LEDGERS):
        is_far = number >= len(LEDGERS)
        assert len(w) == SIZE and expected(w)[:2] == [0, 0] and expected(w)[6:] == [0, 0, 2 if is_far else 0, 0, 0, 0]
        assert not is_far or expected(w)[2:6] == [0, 6, 6, 6]
        lines.append(' '.join(map(str, w)))
        for changes in copies(number, w):
            copy = changed(w, changes)
            if not within(copy):
                continue
            lines.append(' '.join([str(len(changes))] + [f'{i} {v}' for i, v in changes]))
            answers.append(''.join(map(str, expected(copy))))
        lines.append('999')
    return '\n'.join(lines) + '\n', '\n'.join(answers) + '\n'


def main():
    root = os.path.join(os.path.dirname(os.path.abspath(__file__)), '..', '..', 'crates', 'damaged')
    good = True
    for name, text in zip(('stdin', 'stdout'), write()):
        path = os.path.join(root, name)
        if '--check' in sys.argv:
            good = good and open(path).read() == text
        else:
            open(path, 'w').write(text)
    sys.exit(0 if good else 1)


main()

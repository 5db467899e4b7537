//! Calls that are lent unfit words: refusals 1, 2 and 3, which the Rust has no counterpart of. What is refused, and by which number, is
//! restated here from document 01; the call must leave every lent word as it was.

use oracle::literals::{MOST_ATOMS, is_row, mask_words};
use oracle::{Answer, Row};

use crate::book::Book;
use crate::call::{Call, Role, Slice, Wound};
use crate::compare::{Made, World};
use crate::end::{End, lengths};
use crate::far::{SPAN, TOO_MANY};
use crate::host::{self, Lent};
use crate::layout::{self, FOUNDED, POSTINGS, SLOT, SOURCE};
use crate::random::Random;
use crate::told::Told;

/// The most conditions and outputs of a row.
const MOST: (u64, u64) = (16, 64);
/// The groups that a slot has room for.
const MOST_GROUPS: u64 = 53;

/// Makes a call with wounded words, on a copy. None: the words are fit all the same, or the call cannot be made.
pub fn step(world: &World, call: &Call, wounds: &[Wound]) -> Option<Made> {
    let mut copy = world.copy(call);
    let end = End::lent(call, &copy.ledgers);
    let mut lent = host::lend(call, &mut copy.books, end)?;
    wounds.iter().for_each(|wound| apply(*wound, &mut lent));
    let number = refusal(call, &lent)?;
    if let Call::Close { .. } = call {
        lent.end.scratch = host::scratch(&lent.rows, &lent.atoms);
    }
    let mut expected = lent.clone();
    expected.end.result = number;
    let head = lent.tier.head;
    host::pass(call, &mut lent);
    if let Some(fault) = world.fault {
        fault.alter(call, &head, &Told::default(), &mut lent);
    }
    let difference = (lent != expected).then(|| {
        let (got, result) = (lent.end.result, expected.end.result);
        if got == result {
            format!("refused by {got}, and a lent word is changed")
        } else {
            format!("result: {got}, not {result}")
        }
    });
    Some(Made {
        answer: Answer::Refused(number),
        charge: 0,
        tier: None,
        store: None,
        decided: 0,
        highest: None,
        value: 0,
        hits: 0,
        rows: Vec::new(),
        told: Told::default(),
        difference,
    })
}

fn book(lent: &mut Lent, role: Role) -> &mut Book {
    match role {
        Role::Tier => &mut lent.tier,
        Role::Store => &mut lent.store,
    }
}

/// A lent slice.
fn slice(lent: &mut Lent, slice: Slice) -> &mut Vec<u64> {
    match slice {
        Slice::Slots(role) => &mut book(lent, role).slots,
        Slice::Postings(role) => &mut book(lent, role).postings,
        Slice::Held => &mut lent.end.region.held,
        Slice::Cut => &mut lent.end.region.cut,
        Slice::Rows if lent.end.found.is_empty() => &mut lent.rows,
        Slice::Rows => &mut lent.end.found,
        Slice::Atoms => &mut lent.atoms,
    }
}

fn apply(wound: Wound, lent: &mut Lent) {
    match wound {
        Wound::Head { role, index, word } => book(lent, role).head[index] = word,
        Wound::Word {
            slice: name,
            index,
            word,
        } => {
            if let Some(place) = slice(lent, name).get_mut(index) {
                *place = word;
            }
        }
        Wound::Length {
            slice: name,
            length,
        } => slice(lent, name).resize(length, 0),
    }
}

/// The refusal that the lent words lead to: 1, 2, 3 of the tier, and of the store; 6 of Decide. Others are not tried here.
fn refusal(call: &Call, lent: &Lent) -> Option<u64> {
    let (rows, atoms) = (lent.tier.head[1] as usize, lent.tier.head[0] as usize);
    let buffers = match call {
        Call::Candidates { .. } => lent.end.found.len() == rows,
        Call::Close { .. } => lent.rows.len() == rows && lent.atoms.len() == atoms,
        _ => true,
    };
    match call {
        Call::Make { limits, .. } => {
            let fits =
                (lent.tier.slots.len(), lent.tier.postings.len()) == lengths(limits.tier_rows);
            let number = if limits.in_range() { 2 } else { 1 };
            (number == 1 || !fits).then_some(number)
        }
        Call::Decide { atoms, .. } => {
            let words = atoms.div_ceil(64) as usize;
            let region = &lent.end.region;
            let fits = (1..=MOST_ATOMS).contains(atoms)
                && region.held.len() == words
                && region.cut.len() == words;
            (!fits).then_some(6)
        }
        Call::Seed { .. } | Call::Deliver { .. } => {
            ledger_refusal(&lent.tier, true).or_else(|| ledger_refusal(&lent.store, true))
        }
        _ => ledger_refusal(&lent.tier, buffers),
    }
}

/// 1, 2 or 3, of a ledger and the buffers of a call.
fn ledger_refusal(book: &Book, buffers: bool) -> Option<u64> {
    let [atoms, tier_rows, conditions, outputs, ..] = book.head;
    let in_range = (1..=MOST_ATOMS).contains(&atoms)
        && (1..=4_096).contains(&tier_rows)
        && conditions <= MOST.0
        && outputs <= MOST.1;
    if !in_range {
        return Some(1);
    }
    let sized = (book.slots.len(), book.postings.len()) == lengths(tier_rows);
    if !sized || !buffers {
        return Some(2);
    }
    (!contents_fit(book)).then_some(3)
}

/// Whether the words are a ledger's: its rows can be read, and are written as they stand.
fn contents_fit(book: &Book) -> bool {
    let head = &book.head;
    let (tier_rows, rows, born) = (head[1], head[11], head[12]);
    let counts = rows <= tier_rows && head[13] < tier_rows && head[14] <= head[5];
    if !counts {
        return false;
    }
    let (used, unused) = book.slots.split_at(SLOT * rows as usize);
    let read: Option<Vec<Row>> = used
        .chunks(SLOT)
        .map(|slot| row_in(slot, head[0]))
        .collect();
    let Some(read) = read else { return false };
    let mut postings = Vec::new();
    if head[20] == 0 {
        postings = layout::postings(&read);
    }
    postings.resize(POSTINGS * tier_rows as usize, 0);
    let founded = read.iter().filter(|row| row.source == 0).count();
    read.iter().all(|row| (1..=born).contains(&row.born))
        && founded as u64 == head[FOUNDED]
        && unused.iter().all(|&word| word == 0)
        && postings == book.postings
}

/// The row of a slot, if it is one over so many atoms.
fn row_in(slot: &[u64], atoms: u64) -> Option<Row> {
    let row = read(slot)?;
    let fits = is_row(atoms, MOST, &row.conditions, &row.outputs);
    (fits && layout::slot(&row) == slot).then_some(row)
}

/// What a slot says. Counts that would not go into a slot are left unread.
fn read(slot: &[u64]) -> Option<Row> {
    let [conditions, outputs, total, condition_groups, ..] = slot[..4] else {
        return None;
    };
    if conditions > MOST.0 || outputs > MOST.1 || total > MOST_GROUPS {
        return None;
    }
    if slot[7] > 1 || slot[SOURCE] > 1 {
        return None;
    }
    let body = &slot[8..SOURCE];
    let codes = if total == 0 {
        body[..(conditions + outputs) as usize].to_vec()
    } else {
        group_codes(&body[..3 * total as usize])
    };
    let (conditions, outputs) = codes.split_at_checked(conditions as usize)?;
    Some(Row {
        conditions: conditions.to_vec(),
        outputs: outputs.to_vec(),
        groups: Vec::new(),
        condition_groups,
        hits: slot[4],
        unshared: slot[5],
        born: slot[6],
        delivered: slot[7] == 1,
        source: slot[SOURCE],
    })
}

/// The codes of groups. A group index beyond all atoms gives a code that is none.
fn group_codes(groups: &[u64]) -> Vec<u64> {
    let mut codes = Vec::new();
    for group in groups.chunks(3) {
        let first = group[0].min(1 << 20) * 64;
        let literals = (0..64).flat_map(|bit| [(bit, 2), (bit, 1)]);
        let present = literals.filter(|&(bit, sign)| group[sign] >> bit & 1 == 1);
        codes.extend(present.map(|(bit, sign)| 2 * (first + bit) + u64::from(sign == 1)));
    }
    codes
}

/// A random wound of what a call is lent.
pub fn wound(random: &mut Random, call: &Call, world: &World) -> Wound {
    let (tier, store) = call.places();
    let (role, place) = match store {
        Some(_) if random.chance(1, 2) => (Role::Store, store),
        _ => (Role::Tier, tier),
    };
    let Some(book) = place.and_then(|place| world.books[place].as_ref()) else {
        return length(random, call, role, (0, 0));
    };
    match random.below(12) {
        0 => limit(random, role),
        1 => count(random, role, book),
        10 => founded(random, role, book),
        11 => source(random, role, book),
        2 | 3 => {
            let lengths = (book.slots.len(), book.postings.len());
            length(random, call, role, lengths)
        }
        4 => posting(random, role, book),
        _ => slot_word(random, role, book),
    }
}

/// Another word in a slot.
fn slot_word(random: &mut Random, role: Role, book: &Book) -> Wound {
    let index = index(random, &book.slots);
    let (old, bit) = (book.slots[index], 1 << random.below(64));
    let more = old.wrapping_add(random.pick(&[1, SPAN, 1 << 32]));
    Wound::Word {
        slice: Slice::Slots(role),
        index,
        word: random.pick(&[0, 1, 2, 65, u64::MAX, old ^ 1, old ^ bit, more]),
    }
}

/// Another founded count.
fn founded(random: &mut Random, role: Role, book: &Book) -> Wound {
    let (old, rows) = (book.head[FOUNDED], book.head[11]);
    let less = old.wrapping_sub(1);
    Wound::Head {
        role,
        index: FOUNDED,
        word: random.pick(&[old + 1, old + 1, less, less, rows - old, rows, 0, 1 << 32]),
    }
}

/// Another source, of a row or of an unused slot.
fn source(random: &mut Random, role: Role, book: &Book) -> Wound {
    let slots = book.slots.len() / SLOT;
    let place = random.pick(&[book.head[11].max(1) as usize, slots]);
    let index = SLOT * random.below(place.min(slots) as u64) as usize + SOURCE;
    Wound::Word {
        slice: Slice::Slots(role),
        index,
        word: random.pick(&[1 - book.slots[index].min(1), 2, 256, 1 << 32, u64::MAX]),
    }
}

/// Another posting. Every posting has 32 bits at most.
fn posting(random: &mut Random, role: Role, book: &Book) -> Wound {
    let index = index(random, &book.postings);
    let more = book.postings[index].wrapping_add(1 << 32);
    Wound::Word {
        slice: Slice::Postings(role),
        index,
        word: random.pick(&[0, 1, 4_096, 4_097, u64::MAX, more]),
    }
}

/// A place in a slice: any, or in the first words.
fn index(random: &mut Random, words: &[u64]) -> usize {
    let end = random.pick(&[24, 2 * SLOT, words.len()]).min(words.len());
    random.below(end as u64) as usize
}

/// A limit out of its range, or another that is in it.
fn limit(random: &mut Random, role: Role) -> Wound {
    let (index, words) = random.pick(&[
        (0, [0, TOO_MANY, u64::MAX, 131]),
        (1, [0, 4_097, u64::MAX, 3]),
        (2, [17, u64::MAX, 1 << 32, 0]),
        (3, [65, u64::MAX, 1 << 40, 0]),
    ]);
    Wound::Head {
        role,
        index,
        word: random.pick(&words),
    }
}

/// A count that no ledger has: rows, born, epoch, attempts; or postings that are said to stand.
fn count(random: &mut Random, role: Role, book: &Book) -> Wound {
    let (rows, tier_rows) = (book.head[11], book.head[1]);
    let (index, word) = match random.below(6) {
        0 => (
            11,
            random.pick(&[tier_rows + 1, rows + 1, rows.wrapping_sub(1), u64::MAX]),
        ),
        1 => (12, random.pick(&[0, book.head[12].wrapping_sub(1)])),
        2 => (13, random.pick(&[tier_rows, u64::MAX])),
        3 => (14, random.pick(&[book.head[5].wrapping_add(1), u64::MAX])),
        4 => (20, 1 - book.head[20].min(1)),
        _ => (5, book.head[14].wrapping_sub(1)),
    };
    Wound::Head { role, index, word }
}

/// A slice with some words more or less.
fn length(random: &mut Random, call: &Call, role: Role, lengths: (usize, usize)) -> Wound {
    let (slots, postings) = (
        (Slice::Slots(role), lengths.0),
        (Slice::Postings(role), lengths.1),
    );
    let (slice, length) = match call {
        Call::Decide { atoms, .. } => {
            let words = mask_words(*atoms.min(&MOST_ATOMS));
            random.pick(&[(Slice::Held, words), (Slice::Cut, words)])
        }
        Call::Make { limits, .. } => {
            let (slots, postings) = crate::end::lengths(limits.tier_rows);
            random.pick(&[
                (Slice::Slots(role), slots),
                (Slice::Postings(role), postings),
            ])
        }
        Call::Candidates { .. } => random.pick(&[slots, postings, (Slice::Rows, lengths.0 / SLOT)]),
        Call::Close { .. } => random.pick(&[
            slots,
            postings,
            (Slice::Rows, lengths.0 / SLOT),
            (Slice::Atoms, 64),
        ]),
        _ => random.pick(&[slots, postings]),
    };
    let length = random.pick(&[
        0,
        length.saturating_sub(1),
        length + 1,
        length + SLOT,
        length,
    ]);
    Wound::Length { slice, length }
}

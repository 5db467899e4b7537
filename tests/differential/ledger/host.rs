//! The boundary as a ledger: the words that a caller keeps, and a call over them.

use crate::book::{Book, decide};
use crate::call::{Call, Field, PLACES};
use crate::end::{End, Scratch, USED, lengths};
use crate::layout::{HEAD, SLOT, limit_words};

/// The ledgers of a script.
pub type Books = [Option<Book>; PLACES];

/// All that is lent to a call.
#[derive(Clone, Debug, PartialEq, Eq)]
pub struct Lent {
    pub tier: Book,
    pub store: Book,
    /// The answer, the meter, the cursor, the region, and the answer buffer of Candidates.
    pub end: End,
    /// The scratch of Close.
    pub rows: Vec<u64>,
    pub atoms: Vec<u64>,
}

/// What a call is lent. The books are taken from their places; a Make has a used one.
pub fn lend(call: &Call, books: &mut Books, end: End) -> Option<Lent> {
    let (tier, store) = call.places();
    let mut take = |place: Option<usize>| match place {
        None => Some(Book::default()),
        Some(place) => books[place].take(),
    };
    let tier = match call {
        Call::Make { limits, .. } => {
            let (slots, postings) = lengths(limits.tier_rows);
            Some(Book {
                head: [USED; HEAD],
                slots: vec![USED; slots],
                postings: vec![USED; postings],
            })
        }
        _ => take(tier),
    };
    let store = take(store);
    let (tier, store) = (tier?, store?);
    let (mut rows, mut atoms) = (Vec::new(), Vec::new());
    if let Call::Close { .. } = call {
        rows = vec![USED; tier.head[1] as usize];
        atoms = vec![USED; tier.head[0] as usize];
    }
    Some(Lent {
        tier,
        store,
        end,
        rows,
        atoms,
    })
}

/// Puts the books back. A refused Make leaves none.
pub fn give_back(call: &Call, lent: Lent, books: &mut Books) -> End {
    let (tier, store) = call.places();
    if let Some(place) = tier {
        let made = !matches!(call, Call::Make { .. }) || lent.end.result == 0;
        books[place] = made.then_some(lent.tier);
    }
    if let Some(place) = store {
        books[place] = Some(lent.store);
    }
    lent.end
}

/// Calls the library.
pub fn pass(call: &Call, lent: &mut Lent) {
    let Lent {
        tier,
        store,
        end,
        rows,
        atoms,
    } = lent;
    let End {
        answer,
        meter,
        cursor,
        region,
        found,
        ..
    } = end;
    end.result = match call {
        Call::Make { limits, number, .. } => tier.make(&limit_words(limits), *number, answer),
        Call::Offer {
            conditions,
            outputs,
            source,
            ..
        } => tier.offer((conditions, outputs), *source, answer, meter),
        Call::Hit { position, .. } => tier.hit(*position, answer),
        Call::Begin { .. } => tier.begin(answer),
        Call::Candidates { atoms, .. } => tier.candidates(atoms, found, answer, meter),
        Call::Deduce { position, .. } => {
            tier.deduce(*position, (&region.held, &region.cut), answer, meter)
        }
        Call::Next { position, .. } => {
            let region = (&region.held[..], &region.cut[..]);
            tier.next_output(*position, cursor, region, answer, meter)
        }
        Call::Close { .. } => {
            let region = (&mut region.held[..], &mut region.cut[..]);
            tier.close(region, (&mut *rows, &mut *atoms), answer, meter)
        }
        Call::Decide {
            atoms, atom, value, ..
        } => {
            // Any word but 0 is true.
            let value = if *value { atom | 1 } else { 0 };
            let region = (&mut region.held[..], &mut region.cut[..]);
            decide(*atoms, region, (*atom, value), answer)
        }
        Call::Seed { .. } => tier.seed(store, answer, meter),
        Call::Deliver { .. } => tier.deliver(store, answer, meter),
        Call::Set { .. } | Call::Unfit { .. } => unreachable!("no call of the library"),
    };
    if let Call::Close { .. } = call {
        end.scratch = scratch(rows, atoms);
    }
}

/// What the scratch of Close holds.
pub fn scratch(rows: &[u64], atoms: &[u64]) -> Scratch {
    let all = |word: u64| rows.iter().chain(atoms).all(|&other| other == word);
    if all(0) {
        Scratch::Zeroed
    } else if all(USED) {
        Scratch::Kept
    } else {
        Scratch::Else
    }
}

/// Sets a number of the ledger.
pub fn set(book: &mut Book, field: Field, value: u64) {
    let rows = book.head[11] as usize;
    match field {
        Field::Born => book.head[12] = value,
        Field::Remaining => book.head[15] = value,
        Field::Sharing => book.head[16] = value,
        Field::Evicted => book.head[17] = value,
        Field::Deliveries => book.head[18] = value,
        Field::Seeded => book.head[19] = value,
        Field::Hits(position) if position < rows => book.slots[SLOT * position + 4] = value,
        Field::Unshared(position) if position < rows => book.slots[SLOT * position + 5] = value,
        Field::Hits(_) | Field::Unshared(_) => {}
    }
}

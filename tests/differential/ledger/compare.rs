//! The same call on both sides, and all that it leaves held against each other.

use std::array;

use oracle::{Answer, Header, Ledger, Row};

use crate::book::Book;
use crate::call::{Call, PLACES};
use crate::end::End;
use crate::fault::Fault;
use crate::generate::Ledgers;
use crate::host::{self, Books};
use crate::layout::{self, SLOT};
use crate::rust::{self, Ended};
use crate::told::{Told, told};
use crate::unfit;

/// Up to so many rows are few.
const FEW: usize = 8;

/// The ledgers of a script on both sides.
#[derive(Default)]
pub struct World {
    pub ledgers: Ledgers,
    pub books: Books,
    /// A fault that the verified side is given, to see that it is found.
    pub fault: Option<Fault>,
}

/// The header of a ledger before a call and after it.
pub type Change = Option<(Header, Header)>;

/// A call that was made.
pub struct Made {
    pub answer: Answer,
    pub charge: u64,
    pub tier: Change,
    pub store: Change,
    /// The atoms that it marked, and the greatest of them.
    pub decided: u32,
    pub highest: Option<u64>,
    /// The value of its answer.
    pub value: u64,
    /// The hits that a closing counted.
    pub hits: u64,
    /// The rows before it of the ledger that an offer or a transfer may add to, where they are few.
    pub rows: Vec<Row>,
    /// The Requires of a deduction or a closing.
    pub told: Told,
    /// What differs, in words.
    pub difference: Option<String>,
}

impl World {
    pub fn new(fault: Option<Fault>) -> Self {
        Self {
            fault,
            ..Self::default()
        }
    }

    /// The ledgers that a call names, to try it on.
    pub fn copy(&self, call: &Call) -> Self {
        let (tier, store) = call.places();
        let named = |place: usize| Some(place) == tier || Some(place) == store;
        let ledger = |place: usize| self.ledgers[place].as_ref().filter(|_| named(place));
        let book = |place: usize| self.books[place].as_ref().filter(|_| named(place));
        Self {
            ledgers: array::from_fn(|place| ledger(place).cloned()),
            books: array::from_fn(|place| book(place).cloned()),
            fault: self.fault,
        }
    }

    /// Makes a call on both sides. None: it is no call, or it cannot be made here.
    pub fn step(&mut self, call: &Call) -> Option<Made> {
        match call {
            Call::Set {
                place,
                field,
                value,
            } => {
                rust::run(call, &mut self.ledgers);
                if let Some(book) = &mut self.books[*place] {
                    host::set(book, *field, *value);
                }
                None
            }
            Call::Unfit { call, wounds } => unfit::step(self, call, wounds),
            call => self.both(call),
        }
    }

    fn both(&mut self, call: &Call) -> Option<Made> {
        let places = call.places();
        let before = (self.header(places.0), self.header(places.1));
        let given = End::lent(call, &self.ledgers);
        let (before_marks, hits) = (given.marks(), self.hits(call));
        let told = told(call, &self.ledgers, &given);
        let rows = self.receiving(call);
        let Ended { answer, end } = rust::run(call, &mut self.ledgers)?;
        let mut lent = host::lend(call, &mut self.books, given)?;
        let head = lent.tier.head;
        host::pass(call, &mut lent);
        if let Some(fault) = self.fault {
            fault.alter(call, &head, &told, &mut lent);
        }
        let got = host::give_back(call, lent, &mut self.books);
        let difference = end_difference(&end, &got)
            .or_else(|| told_difference(call, &told, &end))
            .or_else(|| self.after(call, answer));
        let after = (self.header(places.0), self.header(places.1));
        let [_, value, charge, _] = if end.result == 0 { end.answer } else { [0; 4] };
        let decided = newly(&before_marks, &end.marks());
        Some(Made {
            answer,
            charge,
            tier: before.0.zip(after.0),
            store: before.1.zip(after.1),
            decided: decided.iter().map(|word| word.count_ones()).sum(),
            highest: highest(&decided),
            value,
            hits: self.hits(call).wrapping_sub(hits),
            rows,
            told,
            difference,
        })
    }

    /// All hits of the ledger that is closed.
    fn hits(&self, call: &Call) -> u64 {
        let Call::Close { place, .. } = call else {
            return 0;
        };
        let Some(ledger) = &self.ledgers[*place] else {
            return 0;
        };
        let hits = (0..ledger.rows()).map(|position| ledger.row(position).hits);
        hits.fold(0, u64::wrapping_add)
    }

    /// The rows of the ledger that an offer or a transfer may add to; none where they are many.
    fn receiving(&self, call: &Call) -> Vec<Row> {
        let ledger = call
            .receiver()
            .and_then(|place| self.ledgers[place].as_ref());
        let few = ledger.filter(|ledger| ledger.rows() <= FEW);
        few.map_or(Vec::new(), |ledger| {
            let positions = 0..ledger.rows();
            positions.map(|position| ledger.row(position)).collect()
        })
    }

    fn header(&self, place: Option<usize>) -> Option<Header> {
        self.ledgers[place?].as_ref().map(Ledger::header)
    }

    /// What differs in the ledgers after a call. Deduce and Next output are lent theirs to read alone: their words are held
    /// against the oracle's after the next call that writes, and at the end of the script.
    fn after(&self, call: &Call, answer: Answer) -> Option<String> {
        let reads = matches!(call, Call::Deduce { .. } | Call::Next { .. });
        let whole = !reads || matches!(answer, Answer::Refused(_));
        let (tier, store) = call.places();
        let places = tier.into_iter().chain(store);
        places
            .into_iter()
            .find_map(|place| self.book_difference(place, whole))
    }

    /// What differs in any ledger.
    pub fn anywhere(&self) -> Option<String> {
        (0..PLACES).find_map(|place| self.book_difference(place, true))
    }

    fn book_difference(&self, place: usize, whole: bool) -> Option<String> {
        let (ledger, book) = match (&self.ledgers[place], &self.books[place]) {
            (None, None) => return None,
            (Some(ledger), Some(book)) => (ledger, book),
            _ => return Some(format!("ledger {place} is made on one side alone")),
        };
        let head = words_difference("header", &layout::head(ledger), &book.head);
        let inside = || {
            let slots = slots_difference(ledger, book);
            slots.or_else(|| words_difference("postings", &ledger.postings(), &book.postings))
        };
        let difference = head.or_else(|| if whole { inside() } else { None });
        difference.map(|text| format!("ledger {place}, {text}"))
    }
}

/// The marks that are new.
fn newly(before: &[u64], after: &[u64]) -> Vec<u64> {
    let words = before.iter().zip(after);
    words.map(|(before, after)| after & !before).collect()
}

/// The greatest atom of a mask.
fn highest(mask: &[u64]) -> Option<u64> {
    let place = mask.iter().rposition(|&word| word != 0)?;
    Some(64 * place as u64 + u64::from(mask[place].ilog2()))
}

/// What differs in the words lent besides ledgers.
fn end_difference(end: &End, got: &End) -> Option<String> {
    if end == got {
        return None;
    }
    let one = |name: &str, left: &[u64], right: &[u64]| words_difference(name, left, right);
    one("result", &[end.result], &[got.result])
        .or_else(|| one("answer", &end.answer, &got.answer))
        .or_else(|| one("meter", &end.meter, &got.meter))
        .or_else(|| one("cursor", &end.cursor, &got.cursor))
        .or_else(|| one("held", &end.region.held, &got.region.held))
        .or_else(|| one("cut", &end.region.cut, &got.region.cut))
        .or_else(|| one("found", &end.found, &got.found))
        .or_else(|| Some(format!("scratch: {:?}, not {:?}", got.scratch, end.scratch)))
}

/// Whether the driver of the oracle names another output than is told apart from it. The words of both sides are the same.
fn told_difference(call: &Call, told: &Told, end: &End) -> Option<String> {
    let value = match call {
        Call::Close { .. } => u64::from(told.named().is_some()),
        _ => end.answer[1],
    };
    let same = end.result != 0 || (end.answer[1], end.answer[3]) == (value, told.word());
    (!same).then(|| format!("both name {}, not {:?}", end.answer[3], told.named()))
}

/// The first word that differs. After the expected words there are zeros.
fn words_difference(name: &str, expected: &[u64], got: &[u64]) -> Option<String> {
    let (first, rest) = got.split_at(expected.len().min(got.len()));
    if first == expected && rest.iter().all(|&word| word == 0) {
        return None;
    }
    let wanted = expected.iter().copied().chain(std::iter::repeat(0));
    let place = wanted
        .clone()
        .zip(got)
        .position(|(left, right)| left != *right);
    let Some(place) = place else {
        return Some(format!(
            "{name}: {} words, not {}",
            got.len(),
            expected.len()
        ));
    };
    let wanted = wanted.clone().nth(place).expect("it has no end");
    Some(format!("{name} word {place}: {}, not {wanted}", got[place]))
}

/// The slots, by an encoder of the oracle's rows.
fn slots_difference(ledger: &Ledger, book: &Book) -> Option<String> {
    let rows = ledger.rows();
    let unused = book.slots.get(SLOT * rows..).unwrap_or(&[]);
    let row_difference = |position: usize| {
        let row = ledger.row(position);
        let slot = layout::slot(&row);
        if (slot[2] != 0) != row.is_packed() {
            return Some(format!("slot {position}: the Rust has another form"));
        }
        let words = book.slots.get(SLOT * position..SLOT * (position + 1));
        words_difference(&format!("slot {position},"), &slot, words.unwrap_or(&[]))
    };
    let used = (0..rows).find_map(row_difference);
    used.or_else(|| words_difference("unused slots,", &[], unused))
}

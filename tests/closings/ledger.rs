//! A ledger behind the C boundary (include/ledger.h), with the rows that it took.

use crate::book::Book;
use crate::boundary::{ANSWER_WORDS, Answer, HEADER_WORDS, POSTING_WORDS, SLOT_WORDS};
use crate::rows::{Ending, Literals, Row};

pub const ROWS: usize = 11;
pub const EVICTED: usize = 17;
pub const STALE: usize = 20;
pub const FULL: usize = 21;
pub const FOUNDED: usize = 25;
pub const HITS: usize = 4;
pub const UNSHARED: usize = 5;
/// The answers of an offer from this one on, Subsumed and Added, are those of a row taken.
const SUBSUMED: u64 = 4;

#[derive(Clone, Copy, PartialEq, Eq, Debug)]
pub enum Case {
    Closed,
    Conflict,
    Stopped,
}

/// What a closing left, beside the ledger.
#[derive(Clone, Copy, PartialEq, Eq, Debug)]
pub struct Closing {
    pub case: Case,
    pub ticks: u64,
    pub region: Literals,
    pub named: Option<u64>,
    pub scratch_is_zero: bool,
}

impl Closing {
    fn read(answer: Answer, region: Literals, scratch: &[u64]) -> Closing {
        Closing {
            case: [Case::Closed, Case::Conflict, Case::Stopped][answer[0] as usize],
            ticks: answer[2],
            region,
            named: named(answer),
            scratch_is_zero: scratch.iter().all(|word| *word == 0),
        }
    }

    /// Of a closing that was not stopped.
    pub fn ending(&self) -> Ending {
        match self.case {
            Case::Closed => Ending::Closed(self.region),
            _ => Ending::Conflict,
        }
    }
}

/// The output that a closing names. Where there is none the word of its code is 0.
fn named(answer: Answer) -> Option<u64> {
    match (answer[1], answer[3]) {
        (0, 0) => None,
        (1, code) => Some(code),
        other => panic!("no words of a closing: {other:?}"),
    }
}

#[derive(Clone)]
pub struct Ledger {
    pub atoms: u64,
    pub book: Book,
    /// The rows that were offered or transferred to it, and Added or Subsumed.
    pub taken: Vec<Row>,
}

/// Of the limits, what this test varies; there is no floor, no end of attempts, and no row is kept from a transfer.
#[derive(Clone, Copy)]
pub struct Limits {
    pub atoms: u64,
    pub tier_rows: u64,
    pub outputs: u64,
    pub work: u64,
}

impl Ledger {
    pub fn make(limits: Limits) -> Ledger {
        let (atoms, tier_rows, work) = (limits.atoms, limits.tier_rows, limits.work);
        let words = [
            atoms,
            tier_rows,
            16,
            limits.outputs,
            0,
            u64::MAX,
            work,
            u64::MAX,
            16,
            0,
        ];
        let mut book = Book {
            head: [0; HEADER_WORDS],
            slots: vec![1; SLOT_WORDS * tier_rows as usize],
            postings: vec![1; POSTING_WORDS * tier_rows as usize],
        };
        let refusal = book.make(&words, 1, &mut [0; ANSWER_WORDS]);
        assert_eq!(refusal, 0, "make is refused");
        let taken = Vec::new();
        Ledger { atoms, book, taken }
    }

    pub fn hit(&mut self, position: u64) {
        let refusal = self.book.hit(position, &mut [0; ANSWER_WORDS]);
        assert_eq!(refusal, 0, "hit is refused");
    }

    /// Offers a row of a source, with a meter that allows so many ticks. Rows of either source are taken alike.
    pub fn offer(&mut self, row: Row, source: u64, limit: u64) {
        let (conditions, outputs) = (row.conditions.codes(), row.outputs.codes());
        let mut answer = [0; ANSWER_WORDS];
        let meter = &mut [0, limit];
        let row_words = (&conditions[..], &outputs[..]);
        let refusal = self.book.offer(row_words, source, &mut answer, meter);
        assert_eq!(refusal, 0, "an offer is refused");
        if answer[0] >= SUBSUMED {
            self.taken.push(row);
        }
    }

    /// Closes a region, with a meter that allows so many ticks. What stands in the answer and the scratch before does not matter: it is
    /// `fill`.
    pub fn close(&mut self, region: Literals, limit: u64, fill: u64) -> Closing {
        let (mut held, mut cut) = region.held_and_cut();
        let tier_rows = self.book.slots.len() / SLOT_WORDS;
        let mut scratch = vec![fill; tier_rows + self.atoms as usize];
        let (mut answer, mut meter) = ([fill; ANSWER_WORDS], [0, limit]);
        let lent = (
            std::slice::from_mut(&mut held),
            std::slice::from_mut(&mut cut),
        );
        let used = scratch.split_at_mut(tier_rows);
        let refusal = self.book.close(lent, used, &mut answer, &mut meter);
        assert_eq!(refusal, 0, "a closing is refused");
        assert_eq!(meter, [answer[2], limit], "other ticks than are charged");
        Closing::read(answer, Literals::from_words(held, cut), &scratch)
    }

    /// Takes the rows of a store. The meter and the account pay for all of them, and each finds a place: all are taken.
    pub fn seed(&mut self, store: &mut Ledger) {
        let mut answer = [0; ANSWER_WORDS];
        let meter = &mut [0, u64::MAX];
        let refusal = self.book.seed(&mut store.book, &mut answer, meter);
        assert_eq!(
            (refusal, answer[0]),
            (0, 0),
            "a seeding is refused or stopped"
        );
        self.taken.extend(store.rows());
    }

    /// Gives its rows to a store, which takes all of them.
    pub fn deliver(&mut self, store: &mut Ledger) {
        let mut answer = [0; ANSWER_WORDS];
        let meter = &mut [0, u64::MAX];
        let refusal = self.book.deliver(&mut store.book, &mut answer, meter);
        assert_eq!(
            (refusal, answer[0]),
            (0, 0),
            "a delivery is refused or stopped"
        );
        store.taken.extend(self.rows());
    }

    pub fn has_evicted(&self) -> bool {
        self.book.head[EVICTED] != 0
    }

    /// The rows held, read from the slots by document 01's layout.
    pub fn rows(&self) -> Vec<Row> {
        let book = &self.book;
        book.slots
            .chunks(SLOT_WORDS)
            .take(book.head[ROWS] as usize)
            .map(row_in)
            .collect()
    }
}

/// The literals of groups of three words: atom / 64 (always 0 here), present bits, absent bits.
fn of_groups(words: &[u64]) -> Literals {
    words.chunks(3).fold(Literals::NONE, |set, group| {
        set.with(Literals::from_words(group[1], group[2]))
    })
}

fn row_in(slot: &[u64]) -> Row {
    let [conditions, outputs, groups, condition_groups] =
        [0, 1, 2, 3].map(|word| slot[word] as usize);
    let body = &slot[8..];
    if groups == 0 {
        let (first, second) = body[..conditions + outputs].split_at(conditions);
        Row {
            conditions: Literals::of(first),
            outputs: Literals::of(second),
        }
    } else {
        let (first, second) = body[..3 * groups].split_at(3 * condition_groups);
        Row {
            conditions: of_groups(first),
            outputs: of_groups(second),
        }
    }
}

//! The verified ledger by the functions for C: its header and the two slices that are lent to every call.

use crate::book::Book;
use crate::boundary::{ANSWER_WORDS, Answer, HEADER_WORDS, Limits, POSTING_WORDS, SLOT_WORDS};

const ROWS: usize = 11;
const STALE: usize = 20;
const FULL: usize = 21;
const HITS: usize = 4;
/// The source of all rows.
const FOUNDED: u64 = 0;

/// A ledger as its caller keeps it.
#[derive(Clone)]
pub struct Lent(pub Book);

/// A meter with nothing charged, that does not run out.
fn meter() -> [u64; 2] {
    [0, u64::MAX]
}

/// The answer of a call that must not be refused.
fn given(call: impl FnOnce(&mut Answer) -> u64) -> Answer {
    let mut answer = [0; ANSWER_WORDS];
    let refusal = call(&mut answer);
    assert_eq!(refusal, 0, "the call is not refused");
    answer
}

impl Lent {
    pub fn new(limits: &Limits, number: u64) -> Self {
        let rows = limits[1] as usize;
        let mut book = Book {
            head: [0; HEADER_WORDS],
            slots: vec![0; SLOT_WORDS * rows],
            postings: vec![0; POSTING_WORDS * rows],
        };
        given(|answer| book.make(limits, number, answer));
        Self(book)
    }

    /// The acceptance and one flag.
    pub fn begin(&mut self) -> Answer {
        given(|answer| self.0.begin(answer))
    }

    pub fn offer(&mut self, conditions: &[u64], outputs: &[u64]) -> Answer {
        given(|answer| {
            self.0
                .offer((conditions, outputs), FOUNDED, answer, &mut meter())
        })
    }

    pub fn candidates(&mut self, atoms: &[u64], found: &mut [u64]) -> Answer {
        given(|answer| self.0.candidates(atoms, found, answer, &mut meter()))
    }

    pub fn close(
        &mut self,
        held: &mut [u64],
        cut: &mut [u64],
        rows: &mut [u64],
        atoms: &mut [u64],
    ) -> Answer {
        given(|answer| {
            self.0
                .close((held, cut), (rows, atoms), answer, &mut meter())
        })
    }

    /// Seeds this tier from a store.
    pub fn seed(&mut self, store: &mut Self) -> Answer {
        given(|answer| self.0.seed(&mut store.0, answer, &mut meter()))
    }

    /// Delivers this tier's rows to a store.
    pub fn deliver(&mut self, store: &mut Self) -> Answer {
        given(|answer| self.0.deliver(&mut store.0, answer, &mut meter()))
    }

    /// The postings are not built.
    pub fn unbuild(&mut self) {
        self.0.head[STALE] = 1;
        self.0.postings.fill(0);
    }

    /// The next search goes by the postings.
    pub fn narrow(&mut self) {
        self.0.head[FULL] = 0;
    }

    pub fn rows(&self) -> u64 {
        self.0.head[ROWS]
    }

    /// The hits of all rows.
    pub fn hits(&self) -> Vec<u64> {
        let slots = self.0.slots.chunks(SLOT_WORDS);
        slots.map(|slot| slot[HITS]).collect()
    }
}

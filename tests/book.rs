//! The functions of include/ledger.h over the words that a caller keeps: the one wrapper of the tests in Rust.
//! Each gives the refusal, or 0.

use crate::boundary::{
    Answer, CursorWords, Header, Limits, MeterWords, call, ledger_begin, ledger_candidates,
    ledger_close, ledger_decide, ledger_deduce, ledger_deliver, ledger_hit, ledger_make,
    ledger_next_output, ledger_offer, ledger_seed,
};

/// The words of a ledger.
#[derive(Clone, Debug, Default, PartialEq, Eq)]
pub struct Book {
    pub head: Header,
    pub slots: Vec<u64>,
    pub postings: Vec<u64>,
}

/// Two slices lent to be read: a region, held and cut, or a row, conditions and outputs.
type Read<'a> = (&'a [u64], &'a [u64]);
/// Two slices lent to be written: a region, or scratch for rows and for atoms.
type Written<'a> = (&'a mut [u64], &'a mut [u64]);

#[rustfmt::skip] // A call is one line, as the header file has it.
impl Book {
    pub fn make(&mut self, limits: &Limits, number: u64, answer: &mut Answer) -> u64 {
        call!(ledger_make(limits, number, &mut self.head, answer, [mut self.slots], [mut self.postings]))
    }

    pub fn begin(&mut self, answer: &mut Answer) -> u64 {
        call!(ledger_begin(&mut self.head, answer, [self.slots], [self.postings]))
    }

    pub fn hit(&mut self, position: u64, answer: &mut Answer) -> u64 {
        call!(ledger_hit(&mut self.head, answer, [mut self.slots], [self.postings], position))
    }

    pub fn deduce(&self, position: u64, (held, cut): Read, answer: &mut Answer, meter: &mut MeterWords) -> u64 {
        call!(ledger_deduce(&self.head, answer, meter, [self.slots], [self.postings], position, [held], [cut]))
    }

    pub fn next_output(
        &self, position: u64, cursor: &mut CursorWords, (held, cut): Read, answer: &mut Answer, meter: &mut MeterWords,
    ) -> u64 {
        call!(ledger_next_output(&self.head, answer, meter, cursor, [self.slots], [self.postings], position, [held], [cut]))
    }

    /// Offers a row; the source is 0 for Founded, 1 for a Tip.
    pub fn offer(
        &mut self, (conditions, outputs): Read, source: u64, answer: &mut Answer, meter: &mut MeterWords,
    ) -> u64 {
        call!(ledger_offer(
            &mut self.head, answer, meter, [mut self.slots], [mut self.postings], [conditions], [outputs], source
        ))
    }

    pub fn candidates(&mut self, atoms: &[u64], found: &mut [u64], answer: &mut Answer, meter: &mut MeterWords) -> u64 {
        call!(ledger_candidates(&mut self.head, answer, meter, [self.slots], [mut self.postings], [atoms], [mut found]))
    }

    /// Closes a region, with scratch for rows and for atoms.
    pub fn close(
        &mut self, (held, cut): Written, (rows, atoms): Written, answer: &mut Answer, meter: &mut MeterWords,
    ) -> u64 {
        call!(ledger_close(
            &mut self.head, answer, meter, [mut self.slots], [mut self.postings], [mut held], [mut cut], [mut rows], [mut atoms]
        ))
    }

    /// Seeds this tier from a store.
    pub fn seed(&mut self, store: &mut Self, answer: &mut Answer, meter: &mut MeterWords) -> u64 {
        call!(ledger_seed(
            &mut self.head, &mut store.head, answer, meter, [mut self.slots], [mut self.postings], [store.slots], [store.postings]
        ))
    }

    /// Delivers this tier's rows to a store.
    pub fn deliver(&mut self, store: &mut Self, answer: &mut Answer, meter: &mut MeterWords) -> u64 {
        call!(ledger_deliver(
            &mut self.head, &mut store.head, answer, meter, [mut self.slots], [self.postings], [mut store.slots], [mut store.postings]
        ))
    }
}

/// Decides an atom of a region. Any value but 0 is true.
pub fn decide(
    atoms: u64,
    (held, cut): Written,
    (atom, value): (u64, u64),
    answer: &mut Answer,
) -> u64 {
    call!(ledger_decide(answer, atoms, [mut held], [mut cut], atom, value))
}

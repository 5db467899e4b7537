//! Stands for `regions.rs`: it holds the ledger, and the few names of the rest that the ledger uses.
//!
//! The types at the end are the driver's door to the ledger: their methods stand in `ledger/tests.rs` and
//! `ledger/row/tests.rs`, where private items are in reach.

use zetesis_algebra::{Failure, Meter, Quota, Stop, words::Words};

#[allow(dead_code)]
mod founded;
#[allow(dead_code)]
mod ledger;

pub use ledger::{LearningLimits, LearningOwner, LearningStore};

/// Stands for a theory. Document 01 leaves theories and classes behind: there is one, and every ledger is of it.
#[derive(Clone, Debug)]
pub struct Theory;

impl Theory {
    /// Always: there is one theory.
    pub fn same_instance(&self, _other: &Self) -> bool {
        true
    }
}

/// Stands for the counts that `capture` reports to its caller. Only `capture` writes them, and it is not called.
#[derive(Default)]
pub struct SupportExplanationStatistics {
    attempts: u64,
    certified: u64,
    declined: u64,
}

/// Stands for the test of one bit of a mask, by the Rust's own `contains`.
fn bit(mask: &[u64], index: usize) -> bool {
    Words::<u64, &[u64]>::new(mask).contains(index)
}

/// The quota of one call: it grants what is left of the call's limit. The Rust's meter stops at a grant of 0.
pub struct Allowance {
    left: u64,
}

impl Quota for Allowance {
    type Error = Stop;

    fn reserve(&mut self, wanted: u64) -> Result<u64, Stop> {
        let granted = wanted.min(self.left);
        self.left -= granted;
        Ok(granted)
    }

    fn refund(&mut self, unspent: u64) {
        self.left += unspent;
    }
}

/// The meter of one call.
pub type Work<'a> = Meter<'a, Allowance>;

/// What a metered function gives: its result, or the meter's stop.
pub type Metered<T> = Result<T, Failure<Stop>>;

/// Runs a function on a fresh meter. The result is none where the meter stopped it; the number is the ticks made.
pub fn metered<T>(limit: u64, run: impl FnOnce(&mut Work<'_>) -> Metered<T>) -> (Option<T>, u64) {
    let mut allowance = Allowance { left: limit };
    let mut work = Meter::reserved(&mut allowance);
    let result = run(&mut work);
    let charge = work.charged();
    match result.map_err(Failure::into_stop) {
        Ok(value) => (Some(value), charge),
        Err(Stop::WorkLimit) => (None, charge),
        Err(other) => panic!("the Rust stopped with {other:?}"),
    }
}

/// An atom with its sign: true for present.
pub type Literal = (usize, bool);

/// A ledger of the Rust.
#[derive(Clone)]
pub struct Tier {
    ledger: ledger::Ledger,
}

/// The header fields that the Rust's ledger keeps.
#[derive(Clone, Copy, Debug, PartialEq, Eq)]
pub struct Fields {
    pub rows: usize,
    pub born: u64,
    pub epoch: usize,
    pub attempts: usize,
    pub remaining: u64,
    pub sharing: u64,
    pub evicted: u64,
    /// The Rust counts it anew in `settle`; it is given, and never set.
    pub founded: usize,
    pub stale: bool,
    pub full: bool,
    pub mark: Option<(u64, u64)>,
}

/// The numbers that the ledger keeps about a row.
#[derive(Clone, Copy, Debug, PartialEq, Eq)]
pub struct Record {
    pub hits: u64,
    pub unshared: u64,
    pub born: u64,
    pub delivered: bool,
}

/// Who a row is from: the Rust's `Source`, with the second variant that document 02, Eight, adds to it.
#[derive(Clone, Copy, Debug, PartialEq, Eq)]
pub enum Origin {
    Founded,
    Tip,
}

/// A row: its literals, and its groups (index, present bits, absent bits), conditions first. A scalar row has no group.
#[derive(Clone, Debug, PartialEq, Eq)]
pub struct Shape {
    pub conditions: Vec<Literal>,
    pub outputs: Vec<Literal>,
    pub groups: Vec<(usize, u64, u64)>,
    pub condition_groups: usize,
}

/// Where a retention left a row.
#[derive(Clone, Copy, Debug, PartialEq, Eq)]
pub enum Retention {
    Added(usize),
    Subsumed(usize),
    Declined,
}

/// A deduction, with the literal that it requires.
#[derive(Clone, Copy, Debug, PartialEq, Eq)]
pub enum Deduced {
    Nothing,
    Force,
    Require(Literal),
}

/// The fields of an output cursor.
#[derive(Clone, Copy, Debug, Default, PartialEq, Eq)]
pub struct Cursor {
    pub next: usize,
    pub word: usize,
    pub present: u64,
    pub absent: u64,
}

/// The single functions of a row, each on rows given by their literals.
pub struct Leaves;

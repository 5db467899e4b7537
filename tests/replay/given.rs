//! What a call is given: ledgers with any counts, and a meter.

use oracle::ledger::make;
use oracle::{Answer, Header, Ledger, Limits, Record, Row};

use crate::call::Meter;
use crate::layout::{HEAD, POSTINGS, SLOT, head_words, postings, slot};

/// The greatest word.
pub const MOST: u64 = u64::MAX;
/// More ticks and reads than any call here makes.
pub const AMPLE: u64 = 1_000;
/// A fresh meter that stops no call here.
pub const ENDLESS: Meter = Meter {
    charged: 0,
    limit: AMPLE,
};
/// A meter past its limit.
pub const PAST: Meter = Meter {
    charged: 9,
    limit: 5,
};
/// Up to so many rows every search is a full scan.
const SCAN: usize = 64;

/// A meter that was charged before, with so many ticks left.
pub fn left(ticks: u64) -> Meter {
    Meter {
        charged: 3,
        limit: 3 + ticks,
    }
}

/// Limits over so many atoms, with so many rows, outputs and a floor.
pub fn limits(atoms: u64, tier_rows: u64, founded_outputs: u64, founded_floor: u64) -> Limits {
    Limits {
        atoms,
        tier_rows,
        founded_conditions: 16,
        founded_outputs,
        founded_floor,
        founded_attempts: 100,
        founded_work: 20_000,
        share_work: 20_000,
        share_conditions: 1,
        share_hits: 2,
    }
}

/// A header whose counts differ from each other; neither stale nor full.
pub fn header(number: u64, born: u64) -> Header {
    Header {
        number,
        rows: 0,
        born,
        epoch: 0,
        attempts: 4,
        remaining: AMPLE,
        sharing: AMPLE,
        evicted: 11,
        deliveries: 12,
        seeded: 13,
        stale: false,
        full: false,
        mark: None,
        // Counted from the rows.
        founded: 0,
    }
}

/// A row, with what its slot keeps about it.
#[derive(Clone)]
pub struct Entry {
    pub conditions: Vec<u64>,
    pub outputs: Vec<u64>,
    pub record: Record,
    pub source: u64,
}

/// A Founded row by its codes, and its hits, unshared, born and delivered.
pub fn entry(conditions: &[u64], outputs: &[u64], counts: (u64, u64, u64, bool)) -> Entry {
    let (hits, unshared, born, delivered) = counts;
    Entry {
        conditions: conditions.to_vec(),
        outputs: outputs.to_vec(),
        record: Record {
            hits,
            unshared,
            born,
            delivered,
        },
        source: 0,
    }
}

/// The same as a Tip.
pub fn tip(conditions: &[u64], outputs: &[u64], counts: (u64, u64, u64, bool)) -> Entry {
    Entry {
        source: 1,
        ..entry(conditions, outputs, counts)
    }
}

/// A ledger that is to be made.
#[derive(Clone)]
pub struct Given {
    pub limits: Limits,
    pub header: Header,
    pub rows: Vec<Entry>,
}

impl Given {
    /// The same with another header.
    pub fn with(&self, change: impl FnOnce(&mut Header)) -> Self {
        let mut given = self.clone();
        change(&mut given.header);
        given
    }

    /// The ledger: its rows are offered in turn, then every count is set.
    pub fn book(&self) -> Book {
        let mut ledger = make(self.limits, self.header.number).expect("limits in their ranges");
        for (position, row) in self.rows.iter().enumerate() {
            let end = ledger.offer(&row.conditions, &row.outputs, row.source, MOST);
            assert_eq!(end.answer, Answer::Added(position as u64));
        }
        for (position, row) in self.rows.iter().enumerate() {
            ledger.set_record(position, row.record);
        }
        ledger.set_header(self.header);
        let posted = !self.header.stale;
        assert!(!posted || (self.rows.len() <= SCAN && !self.header.full));
        Book {
            ledger,
            posted,
            begun: false,
        }
    }
}

/// A ledger of the oracle. Up to 64 rows the Rust never builds postings. One that was given not stale is posted: it is
/// not stale until it is full, since `settle`, which makes ledgers stale, makes them full too. Begin makes it full alone.
#[derive(Clone)]
pub struct Book {
    pub ledger: Ledger,
    posted: bool,
    /// The last call was a Begin.
    pub begun: bool,
}

impl Book {
    /// A ledger as the Rust has it.
    pub fn new(ledger: Ledger) -> Self {
        Self {
            ledger,
            posted: false,
            begun: false,
        }
    }

    fn header(&self) -> Header {
        let header = self.ledger.header();
        let kept = self.posted && (self.begun || !header.full);
        let stale = header.stale && !kept;
        Header { stale, ..header }
    }

    fn rows(&self) -> Vec<Row> {
        let positions = 0..self.ledger.rows();
        positions
            .map(|position| self.ledger.row(position))
            .collect()
    }

    fn tier_rows(&self) -> usize {
        self.ledger.limits().tier_rows as usize
    }

    /// The words of the header.
    pub fn head(&self) -> [u64; HEAD] {
        head_words(&self.ledger.limits(), &self.header())
    }

    pub fn slots(&self) -> Vec<u64> {
        let mut words: Vec<u64> = self.rows().iter().flat_map(slot).collect();
        words.resize(SLOT * self.tier_rows(), 0);
        words
    }

    pub fn postings(&self) -> Vec<u64> {
        let mut words = Vec::new();
        if !self.header().stale {
            words = postings(&self.rows());
        }
        assert!(self.ledger.header().stale || words == self.ledger.postings());
        words.resize(POSTINGS * self.tier_rows(), 0);
        words
    }
}

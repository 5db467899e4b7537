//! The limits of a ledger.

use crate::boundary::{Header, Limits};

/// The most atoms.
pub(crate) const MOST_ATOMS: u64 = 1_048_576;

/// The limits that a ledger is made with.
#[derive(Clone, Copy, Debug, PartialEq, Eq)]
pub struct LearningLimits {
    /// How many atoms there are: 1 to 1,048,576.
    pub atoms: u64,
    /// How many rows there is room for: 1 to 4,096.
    pub tier_rows: u64,
    /// The most conditions of an offered row: 0 to 16.
    pub founded_conditions: u64,
    /// The most outputs of an offered row, and of rows that are joined: 0 to 64.
    pub founded_outputs: u64,
    /// With no more Founded rows than these only Tips are evicted.
    pub founded_floor: u64,
    /// How many rows may be offered.
    pub founded_attempts: u64,
    /// The reads that all offers together may take.
    pub founded_work: u64,
    /// The reads that all transfers of the tier together may take.
    pub share_work: u64,
    /// A row with more conditions than these is delivered only with hits enough.
    pub share_conditions: u64,
    /// How many hits are enough.
    pub share_hits: u64,
}

impl LearningLimits {
    /// The limits of a tier over 1,048,576 atoms, the most.
    pub const DEFAULT: LearningLimits = LearningLimits {
        atoms: MOST_ATOMS,
        tier_rows: 64,
        founded_conditions: 16,
        founded_outputs: 64,
        founded_floor: 64,
        founded_attempts: 256,
        founded_work: 131_072,
        share_work: 131_072,
        share_conditions: 8,
        share_hits: 2,
    };

    /// The default limits over `atoms` atoms.
    pub const fn tier(atoms: u64) -> LearningLimits {
        LearningLimits {
            atoms,
            ..LearningLimits::DEFAULT
        }
    }

    /// A store's limits over `atoms` atoms: 256 rows, all of them evictable.
    pub const fn store(atoms: u64) -> LearningLimits {
        LearningLimits {
            atoms,
            tier_rows: 256,
            founded_floor: 0,
            ..LearningLimits::DEFAULT
        }
    }

    pub(crate) const fn words(&self) -> Limits {
        [
            self.atoms,
            self.tier_rows,
            self.founded_conditions,
            self.founded_outputs,
            self.founded_floor,
            self.founded_attempts,
            self.founded_work,
            self.share_work,
            self.share_conditions,
            self.share_hits,
        ]
    }

    pub(crate) const fn of(header: &Header) -> LearningLimits {
        LearningLimits {
            atoms: header[0],
            tier_rows: header[1],
            founded_conditions: header[2],
            founded_outputs: header[3],
            founded_floor: header[4],
            founded_attempts: header[5],
            founded_work: header[6],
            share_work: header[7],
            share_conditions: header[8],
            share_hits: header[9],
        }
    }
}

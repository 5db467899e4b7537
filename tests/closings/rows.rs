//! Rows and regions over at most four atoms, and what document 01 says of them, by brute force.

use std::fmt;

/// A set of literals, a bit a code: code 2 × atom is the atom cut, one more the atom held. A region is such a set.
#[derive(Clone, Copy, PartialEq, Eq, Debug)]
pub struct Literals(pub u8);

impl Literals {
    pub const NONE: Literals = Literals(0);

    pub fn of(codes: &[u64]) -> Literals {
        Literals(codes.iter().fold(0, |bits, code| bits | 1 << code))
    }

    /// Ascending.
    pub fn codes(self) -> Vec<u64> {
        (0..8).filter(|code| self.0 >> code & 1 == 1).collect()
    }

    pub fn contains(self, other: Literals) -> bool {
        other.0 & !self.0 == 0
    }

    pub fn with(self, other: Literals) -> Literals {
        Literals(self.0 | other.0)
    }

    pub fn without(self, other: Literals) -> Literals {
        Literals(self.0 & !other.0)
    }

    pub fn meets(self, other: Literals) -> bool {
        self.0 & other.0 != 0
    }

    /// Each literal's opposite.
    pub fn opposite(self) -> Literals {
        Literals((self.0 & 0x55) << 1 | (self.0 & 0xaa) >> 1)
    }

    pub fn count(self) -> u32 {
        self.0.count_ones()
    }

    /// The least code, if there is one.
    pub fn least(self) -> Option<u64> {
        self.codes().first().copied()
    }

    /// The words that the ledger is lent.
    pub fn held_and_cut(self) -> (u64, u64) {
        let bits = |first: u32| {
            (0..4).fold(0, |word, atom| {
                word | u64::from(self.0 >> (2 * atom + first) & 1) << atom
            })
        };
        (bits(1), bits(0))
    }

    pub fn from_words(held: u64, cut: u64) -> Literals {
        assert!(held < 16 && cut < 16, "a bit beyond four atoms");
        let bits = |word: u64, first: u32| {
            (0..4).fold(0, |set, atom| {
                set | ((word >> atom & 1) as u8) << (2 * atom + first)
            })
        };
        Literals(bits(held, 1) | bits(cut, 0))
    }
}

impl fmt::Display for Literals {
    fn fmt(&self, to: &mut fmt::Formatter) -> fmt::Result {
        write!(to, "{:?}", self.codes())
    }
}

/// All 3^atoms regions.
pub fn regions(atoms: u64) -> Vec<Literals> {
    let sets = (0..1u16 << (2 * atoms)).map(|bits| Literals(bits as u8));
    sets.filter(|set| !set.meets(set.opposite())).collect()
}

#[derive(Clone, Copy, PartialEq, Eq)]
pub struct Row {
    pub conditions: Literals,
    pub outputs: Literals,
}

impl fmt::Debug for Row {
    fn fmt(&self, to: &mut fmt::Formatter) -> fmt::Result {
        write!(to, "{} -> {}", self.conditions, self.outputs)
    }
}

#[derive(Clone, Copy, PartialEq, Eq, Debug)]
pub enum Deduction {
    Nothing,
    Force,
    Require {
        literal: Literals,
        contradicted: Literals,
    },
}

impl Row {
    /// The outputs whose opposites the region has.
    pub fn contradicted(self, region: Literals) -> Literals {
        let open = self.outputs.without(region.opposite());
        self.outputs.without(open)
    }

    /// Force if all conditions hold; Require the opposite of the only undecided condition if the others hold and some output is contradicted.
    pub fn deduction(self, region: Literals) -> Deduction {
        let open = self.conditions.without(region);
        let contradicted = self.contradicted(region);
        if open.count() == 0 {
            Deduction::Force
        } else if open.count() == 1
            && !region.contains(open.opposite())
            && contradicted != Literals::NONE
        {
            Deduction::Require {
                literal: open.opposite(),
                contradicted,
            }
        } else {
            Deduction::Nothing
        }
    }

    /// It neither forces nor requires a literal that the region lacks.
    fn leaves(self, region: Literals) -> bool {
        match self.deduction(region) {
            Deduction::Nothing => true,
            Deduction::Force => region.contains(self.outputs),
            Deduction::Require { literal, .. } => region.contains(literal),
        }
    }
}

/// How a closing ends.
#[derive(Clone, Copy, PartialEq, Eq, Debug)]
pub enum Ending {
    Closed(Literals),
    Conflict,
}

/// The regions that are closed under some rows.
pub struct Closures(Vec<Literals>);

impl Closures {
    pub fn under(rows: &[Row], regions: &[Literals]) -> Closures {
        Closures(
            regions
                .iter()
                .copied()
                .filter(|&region| rows.iter().all(|row| row.leaves(region)))
                .collect(),
        )
    }

    /// Among the closed regions that contain the given one, the one that every other contains; Conflict if there are none. A region with no
    /// smallest would be an error of document 01 itself.
    pub fn smallest(&self, given: Literals) -> Ending {
        let around: Vec<Literals> = self
            .0
            .iter()
            .copied()
            .filter(|region| region.contains(given))
            .collect();
        if around.is_empty() {
            return Ending::Conflict;
        }
        let least = around
            .iter()
            .find(|least| around.iter().all(|region| region.contains(**least)));
        Ending::Closed(*least.expect("closed regions, and none in all others"))
    }
}

/// What the rows force on a region.
fn forced(rows: &[Row], region: Literals) -> Literals {
    let firing = rows.iter().filter(|row| region.contains(row.conditions));
    firing.fold(Literals::NONE, |outputs, row| outputs.with(row.outputs))
}

/// The same outputs on every region.
pub fn force_alike(some: &[Row], others: &[Row], regions: &[Literals]) -> bool {
    regions
        .iter()
        .all(|&region| forced(some, region) == forced(others, region))
}

/// For each output of each of `others` there is a row of `some` with that output and no condition beyond that row's.
pub fn covers(some: &[Row], others: &[Row]) -> bool {
    let given = |other: &Row| {
        let within = some
            .iter()
            .filter(|row| other.conditions.contains(row.conditions));
        within.fold(Literals::NONE, |outputs, row| outputs.with(row.outputs))
    };
    others
        .iter()
        .all(|other| given(other).contains(other.outputs))
}

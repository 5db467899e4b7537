//! Document 01's rounds with 02's hits and names, for what brute force does not tell: the hits of each row, what a Conflict keeps, and the
//! output that the last Require names, also where a closing is stopped.

use crate::rows::{Deduction, Ending, Literals, Row};

/// Up to so many rows every round takes all of them.
pub const SCAN_ROWS: usize = 64;

/// A Require that was acted on: the row, and the least output that was contradicted when it was read.
#[derive(Clone, Copy)]
pub struct Named {
    pub row: Row,
    pub output: u64,
}

/// What stands after an atom was decided: the region, and the last Require.
#[derive(Clone, Copy)]
pub struct Step {
    pub region: Literals,
    pub named: Option<Named>,
}

pub struct Told {
    pub ending: Ending,
    pub region: Literals,
    pub hits: Vec<u64>,
    /// The Requires so far.
    pub requires: Vec<Named>,
    /// The region that was given, and then a step for each atom decided, in turn: a stopped closing stands at one of them.
    pub steps: Vec<Step>,
}

/// The two signs of every atom of a set: what a row with such an atom meets.
fn atoms_of(set: Literals) -> Literals {
    set.with(set.opposite())
}

impl Told {
    /// The last Require.
    pub fn named(&self) -> Option<Named> {
        self.requires.last().copied()
    }

    /// Marks a literal, whose opposite is not marked.
    fn mark(&mut self, literal: Literals) {
        if self.region.contains(literal) {
            return;
        }
        self.region = self.region.with(literal);
        self.steps.push(Step {
            region: self.region,
            named: self.named(),
        });
    }

    /// Marks the literals in the order of their codes; false at the first whose opposite is marked.
    fn decide(&mut self, literals: Literals) -> bool {
        let fits = |region: Literals, code: u64| !region.contains(Literals::of(&[code]).opposite());
        for code in literals.codes() {
            if !fits(self.region, code) {
                return false;
            }
            self.mark(Literals::of(&[code]));
        }
        true
    }

    /// A row's turn: false at a Conflict. Document 02, Two: one hit if an atom was decided, or at a Conflict.
    fn act(&mut self, position: usize, row: Row) -> bool {
        let literals = match row.deduction(self.region) {
            Deduction::Nothing => return true,
            Deduction::Force => row.outputs,
            Deduction::Require {
                literal,
                contradicted,
            } => {
                let output = contradicted.least().expect("a contradicted output");
                self.requires.push(Named { row, output });
                literal
            }
        };
        let before = self.region;
        let goes_on = self.decide(literals);
        if !goes_on || self.region != before {
            self.hits[position] += 1;
        }
        goes_on
    }

    /// A round over the rows that the atoms decided before it touch.
    fn round(&mut self, rows: &[Row], decided: Literals, all: bool) -> bool {
        let touched = |row: &Row| all || atoms_of(row.conditions.with(row.outputs)).meets(decided);
        rows.iter()
            .enumerate()
            .filter(|(_, row)| touched(row))
            .all(|(position, row)| self.act(position, *row))
    }
}

pub fn close(rows: &[Row], given: Literals) -> Told {
    let mut told = Told {
        ending: Ending::Conflict,
        region: given,
        hits: vec![0; rows.len()],
        requires: Vec::new(),
        steps: vec![Step {
            region: given,
            named: None,
        }],
    };
    let (mut all, mut decided) = (true, Literals::NONE);
    loop {
        let before = told.region;
        if !told.round(rows, decided, all) {
            return told;
        }
        decided = told.region.without(before);
        all = rows.len() <= SCAN_ROWS;
        if decided == Literals::NONE {
            told.ending = Ending::Closed(told.region);
            return told;
        }
    }
}

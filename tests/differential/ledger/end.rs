//! What a call was lent besides its ledgers, before it and after it.

use oracle::{Answer, Masks};

use crate::call::Call;
use crate::generate::{Ledgers, masks};
use crate::layout::{ANSWER, POSTINGS, SLOT};

/// What stands in the words of answers and scratch before a call.
pub const USED: u64 = 0x5a5a_0123_4567_89ab;

/// The scratch of Close after a call.
#[derive(Clone, Copy, Debug, PartialEq, Eq)]
pub enum Scratch {
    Zeroed,
    Kept,
    Else,
}

/// The words after a call.
#[derive(Clone, Debug, PartialEq, Eq)]
pub struct End {
    /// 0, or the number of the refusal.
    pub result: u64,
    /// Case, value, ticks, contradicted.
    pub answer: [u64; ANSWER],
    /// Charged, limit.
    pub meter: [u64; 2],
    pub cursor: [u64; 4],
    pub region: Masks,
    /// The answer buffer of Candidates.
    pub found: Vec<u64>,
    pub scratch: Scratch,
}

impl End {
    /// The words before the call: the answer and all scratch used, and a region over the ledger's atoms.
    pub fn lent(call: &Call, ledgers: &Ledgers) -> Self {
        let limits = call
            .places()
            .0
            .and_then(|place| ledgers[place].as_ref())
            .map(|ledger| ledger.limits());
        let (atoms, rows) = limits.map_or((1, 0), |limits| (limits.atoms, limits.tier_rows));
        let region = match call {
            Call::Deduce { region, .. }
            | Call::Next { region, .. }
            | Call::Close { region, .. } => masks(atoms, region),
            Call::Decide { atoms, region, .. } => masks(*atoms, region),
            _ => Masks::default(),
        };
        let cursor = match call {
            Call::Next { cursor, .. } => *cursor,
            _ => [0; 4],
        };
        let found = match call {
            Call::Candidates { .. } => vec![USED; rows as usize],
            _ => Vec::new(),
        };
        let meter = call
            .meter()
            .map_or([0; 2], |meter| [meter.charged, meter.limit]);
        Self {
            result: 0,
            answer: [USED; ANSWER],
            meter,
            cursor,
            region,
            found,
            scratch: Scratch::Kept,
        }
    }

    /// The atoms that the region marks, held or cut.
    pub fn marks(&self) -> Vec<u64> {
        let words = self.region.held.iter().zip(&self.region.cut);
        words.map(|(held, cut)| held | cut).collect()
    }

    /// The words of an answer that was charged so much; a refusal changes the result alone.
    pub fn answered(&mut self, answer: Answer, charge: u64) {
        if let Answer::Refused(number) = answer {
            self.result = number;
            return;
        }
        let (case, value) = match answer {
            Answer::Done | Answer::Nothing | Answer::End | Answer::Closed | Answer::False => (0, 0),
            // Their count stands there already.
            Answer::Found => (0, self.answer[1]),
            Answer::Shut | Answer::Force | Answer::Conflict | Answer::True => (1, 0),
            Answer::Output(code) => (1, code),
            Answer::Stopped => (2, 0),
            Answer::Declined => (3, 0),
            Answer::Require { required, .. } => (3, required),
            Answer::Subsumed(position) => (4, position),
            Answer::Added(position) => (5, position),
            Answer::Refused(_) => unreachable!("a refusal has no words"),
        };
        let contradicted = match answer {
            Answer::Require { contradicted, .. } => contradicted,
            _ => 0,
        };
        self.answer = [case, value, charge, contradicted];
        self.meter[0] += charge;
    }

    /// The words of a closing that names an output: that there is one, and its code.
    pub fn names(&mut self, contradicted: u64) {
        self.answer[1] = 1;
        self.answer[3] = contradicted;
    }
}

/// The lengths of the slots and the postings of a ledger with so many rows. With limits out of range anything is lent.
pub fn lengths(tier_rows: u64) -> (usize, usize) {
    let rows = if tier_rows <= 4_096 { tier_rows } else { 1 } as usize;
    (SLOT * rows, POSTINGS * rows)
}

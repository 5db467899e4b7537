//! Which output a deduction or a closing names: document 02's Six, told apart from the driver of tests/oracle. A closing is made again
//! here, call by call, over the Rust's searches, deductions and outputs.

use oracle::{Answer, Cursor, Ledger, Masks, literals};

use crate::call::{Call, Meter};
use crate::contradicted::contradicted;
use crate::end::End;
use crate::generate::Ledgers;

/// A Require: the row's outputs and form, and which of them were contradicted when it was read.
#[derive(Clone, Default)]
pub struct Require {
    pub outputs: Vec<u64>,
    pub packed: bool,
    pub contradicted: Vec<u64>,
}

impl Require {
    fn read(ledger: &Ledger, position: u64, region: &Masks) -> Self {
        let row = ledger.row(position as usize);
        Self {
            contradicted: contradicted(&row.outputs, &region.held, &region.cut),
            packed: row.is_packed(),
            outputs: row.outputs,
        }
    }

    /// The output that it names.
    pub fn named(&self) -> u64 {
        self.contradicted[0]
    }
}

/// The Requires of a call, in turn: that of a deduction, or those that a closing acted on.
#[derive(Default)]
pub struct Told {
    pub requires: Vec<Require>,
    /// Of the last one's outputs those that are contradicted at the end.
    pub late: Vec<u64>,
}

impl Told {
    /// What is named: none, or by the last Require.
    pub fn named(&self) -> Option<u64> {
        self.requires.last().map(Require::named)
    }

    /// The code in the answer.
    pub fn word(&self) -> u64 {
        self.named().unwrap_or(0)
    }
}

/// What a call on these ledgers names, lent these words.
pub fn told(call: &Call, ledgers: &Ledgers, lent: &End) -> Told {
    let ledger = call.places().0.and_then(|place| ledgers[place].as_ref());
    let room = call.meter().map_or(0, Meter::room);
    match (call, ledger) {
        (Call::Deduce { position, .. }, Some(ledger)) => {
            let done = ledger.deduce(*position, &lent.region, room);
            let mut told = Told::default();
            if let Answer::Require { .. } = done.answer {
                let require = Require::read(ledger, *position, &lent.region);
                told.requires.push(require);
            }
            told
        }
        (Call::Close { .. }, Some(ledger)) if is_region(ledger.atoms(), &lent.region) => {
            let mut closing = Closing {
                ledger: ledger.clone(),
                region: lent.region.clone(),
                room,
                told: Told::default(),
            };
            closing.run();
            closing.told()
        }
        _ => Told::default(),
    }
}

/// A closing on its way.
struct Closing {
    ledger: Ledger,
    region: Masks,
    /// The ticks that are left.
    room: u64,
    told: Told,
}

impl Closing {
    /// The rounds, until one decides nothing, or a stop, a Conflict or a refusal.
    fn run(&mut self) {
        self.ledger.begin();
        let mut decided = Vec::new();
        loop {
            let before = self.region.clone();
            let found = self.ledger.candidates(&decided, self.room);
            self.room -= found.charge;
            let stopped = found.answer != Answer::Found;
            if stopped || !found.rows.into_iter().all(|row| self.read(row)) {
                return;
            }
            decided = decided_since(&before, &self.region);
            if decided.is_empty() {
                return;
            }
        }
    }

    /// Reads a row, and decides what it says. False: the closing ends here.
    fn read(&mut self, position: u64) -> bool {
        let done = self.ledger.deduce(position, &self.region, self.room);
        self.room -= done.charge;
        match done.answer {
            Answer::Nothing => true,
            Answer::Force => self.publish(position),
            Answer::Require { required, .. } => {
                let require = Require::read(&self.ledger, position, &self.region);
                self.told.requires.push(require);
                self.decide(required)
            }
            _ => false,
        }
    }

    fn publish(&mut self, position: u64) -> bool {
        let mut cursor = Cursor::default();
        loop {
            let (ledger, region) = (&self.ledger, &self.region);
            let published = ledger.next_output(position, cursor, region, self.room);
            self.room -= published.charge;
            cursor = published.cursor;
            match published.answer {
                Answer::End => return true,
                Answer::Output(code) if self.decide(code) => {}
                _ => return false,
            }
        }
    }

    /// Marks a literal; false if its opposite is marked.
    fn decide(&mut self, code: u64) -> bool {
        let (word, bit) = (code as usize / 128, 1 << (code / 2 % 64));
        let Masks { held, cut } = &mut self.region;
        let (own, opposite) = if code % 2 == 1 {
            (held, cut)
        } else {
            (cut, held)
        };
        let fits = opposite[word] & bit == 0;
        if fits {
            own[word] |= bit;
        }
        fits
    }

    fn told(mut self) -> Told {
        if let Some(last) = self.told.requires.last() {
            self.told.late = contradicted(&last.outputs, &self.region.held, &self.region.cut);
        }
        self.told
    }
}

/// Whether the words are a region: else the closing is refused.
fn is_region(atoms: u64, region: &Masks) -> bool {
    literals::is_region(atoms, &region.held, &region.cut)
}

/// The atoms that one region decides and the other did not, ascending.
fn decided_since(before: &Masks, after: &Masks) -> Vec<u64> {
    let decided = |region: &Masks, word: usize| region.held[word] | region.cut[word];
    let anew = |word: usize| decided(after, word) & !decided(before, word);
    let words: Vec<u64> = (0..after.held.len()).map(anew).collect();
    literals::atoms_of(&words)
}

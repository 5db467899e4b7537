//! Both sides' ledger: the verified one and the Rust's, of the same rows.

use crate::boundary::{Answer, Limits};
use crate::lent::Lent;
use crate::rows::{ATOMS, ROWS, Row};
use zetesis_ferraris::regions::{LearningLimits, Literal, Origin, Retention, Tier, metered};

const PLENTY: u64 = 1 << 40;
fn limits(atoms: u64) -> Limits {
    let rows = ROWS as u64;
    [atoms, rows, 16, 64, 0, PLENTY, PLENTY, PLENTY, 16, 2]
}

fn learning() -> LearningLimits {
    LearningLimits {
        tier_rows: ROWS,
        founded_floor: 0,
        founded_conditions: 16,
        founded_outputs: 64,
        founded_attempts: PLENTY as usize,
        founded_work: PLENTY,
        share_work: PLENTY,
        share_conditions: 16,
        share_hits: 2,
        ..LearningLimits::DEFAULT
    }
}

fn literals(codes: &[u64]) -> Vec<Literal> {
    codes
        .iter()
        .map(|&code| ((code / 2) as usize, code % 2 == 1))
        .collect()
}

/// A row as the Rust takes it.
pub struct Offered {
    conditions: Vec<Literal>,
    outputs: Vec<Literal>,
}

impl Offered {
    pub fn new(row: &Row) -> Self {
        Self {
            conditions: literals(&row.conditions),
            outputs: literals(&row.outputs),
        }
    }

    /// The answer, in the words of the header file.
    pub fn to(&self, tier: &mut Tier) -> Answer {
        assert!(tier.can_capture(), "the ledger is open");
        let (retained, ticks) = metered(u64::MAX, |work| {
            tier.capture(&self.conditions, &self.outputs, Origin::Founded, work)
        });
        match retained.expect("the meter does not run out") {
            Retention::Declined => [3, 0, ticks, 0],
            Retention::Subsumed(position) => [4, position as u64, ticks, 0],
            Retention::Added(position) => [5, position as u64, ticks, 0],
        }
    }
}

/// Both sides' ledger of the same rows.
#[derive(Clone)]
pub struct Both {
    pub lent: Lent,
    pub tier: Tier,
}

impl Both {
    pub fn empty(number: u64) -> Self {
        Self::over(ATOMS, number)
    }

    fn over(atoms: u64, number: u64) -> Self {
        Self {
            lent: Lent::new(&limits(atoms), number),
            tier: Tier::new(learning()),
        }
    }

    /// Offers the rows to both; their answers are the same.
    pub fn offered(rows: &[Row]) -> Self {
        Self::offered_over(ATOMS, rows)
    }

    /// The same over so many atoms.
    pub fn offered_over(atoms: u64, rows: &[Row]) -> Self {
        let mut both = Self::over(atoms, 1);
        for row in rows {
            let answer = both.lent.offer(&row.conditions, &row.outputs);
            assert_eq!(answer, Offered::new(row).to(&mut both.tier), "an offer");
        }
        both
    }

    pub fn unbuild(&mut self) {
        self.lent.unbuild();
        let mut fields = self.tier.fields();
        fields.stale = true;
        self.tier.set_fields(fields);
    }

    pub fn narrow(&mut self) {
        self.lent.narrow();
        let mut fields = self.tier.fields();
        fields.full = false;
        self.tier.set_fields(fields);
    }
}

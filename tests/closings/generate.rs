//! Random rows, and ledgers that learn them.

use crate::ledger::{Ledger, Limits, ROWS};
use crate::random::Random;
use crate::rows::{Literals, Row};

pub const AMPLE: u64 = u64::MAX;

/// One literal for each of `count` distinct atoms.
fn conditions(random: &mut Random, atoms: u64, count: u64) -> Literals {
    let mut left: Vec<u64> = (0..atoms).collect();
    random.shuffle(&mut left);
    let codes: Vec<u64> = left
        .iter()
        .take(count as usize)
        .map(|atom| 2 * atom + random.below(2))
        .collect();
    Literals::of(&codes)
}

/// A row; most rows hold in `world`, a plan for all atoms, so that not every closing ends in Conflict.
fn row(random: &mut Random, atoms: u64, world: Literals) -> Row {
    let count = random.pick(&[0, 1, 1, 1, 1, 2, 2, 2, 3, 4]);
    let conditions = conditions(random, atoms, count);
    let mut outputs = Literals::NONE;
    for _ in 0..random.pick(&[0, 1, 1, 1, 1, 2, 2, 3, 6]) {
        outputs = outputs.with(Literals::of(&[random.below(2 * atoms)]));
    }
    if world.contains(conditions) && random.chance(3, 4) {
        outputs = outputs.without(world.opposite());
    }
    Row {
        conditions,
        outputs,
    }
}

pub fn rows(random: &mut Random, atoms: u64, count: u64) -> Vec<Row> {
    let world = conditions(random, atoms, atoms);
    (0..count).map(|_| row(random, atoms, world)).collect()
}

/// So many rows that a ledger is searched by its postings, if one output is the most that a row may have there: a few rows that say something, and
/// rows of three or four conditions of which most only repeat a condition. Those hardly include each other, and end no closing.
pub fn many_rows(random: &mut Random) -> Vec<Row> {
    let repeating = |random: &mut Random| {
        let count = random.pick(&[3, 3, 4]);
        let conditions = conditions(random, 4, count);
        let own = random.pick(&conditions.codes());
        let output = if random.chance(1, 30) {
            random.below(8)
        } else {
            own
        };
        Row {
            conditions,
            outputs: Literals::of(&[output]),
        }
    };
    let (few, many) = (3 + random.below(5), 120 + random.below(150));
    let mut list = rows(random, 4, few);
    list.extend((0..many).map(|_| repeating(random)));
    random.shuffle(&mut list);
    list
}

/// Each output in a row of its own.
pub fn split(rows: &[Row]) -> Vec<Row> {
    let single = |row: &Row| {
        let conditions = row.conditions;
        row.outputs.codes().into_iter().map(move |code| Row {
            conditions,
            outputs: Literals::of(&[code]),
        })
    };
    rows.iter().flat_map(single).collect()
}

/// Any call between two offers: a closing, a hit, an offer that is stopped.
fn disturb(random: &mut Random, ledger: &mut Ledger, rows: &[Row]) {
    let limit = random.pick(&[AMPLE, AMPLE, 0, 3, 10]);
    match random.below(3) {
        0 => {
            let decided = random.below(ledger.atoms + 1);
            let region = conditions(random, ledger.atoms, decided);
            ledger.close(region, limit, random.word());
        }
        1 if ledger.book.head[ROWS] > 0 => ledger.hit(random.below(ledger.book.head[ROWS])),
        _ => {
            ledger.offer(random.pick(rows), random.below(2), random.below(4));
        }
    }
}

/// A ledger that was offered the rows in this order, with other calls between if `disturbed`.
pub fn learn(random: &mut Random, limits: Limits, rows: &[Row], disturbed: bool) -> Ledger {
    let mut ledger = Ledger::make(limits);
    for row in rows {
        ledger.offer(*row, random.below(2), AMPLE);
        if disturbed && random.chance(1, 3) {
            disturb(random, &mut ledger, rows);
        }
    }
    ledger
}

//! Scripts of Requires: rows of 64 outputs of which chosen ones are contradicted, and closings that act on several Requires.

use crate::call::{Call, Region};
use crate::parts::{AMPLE, roomy};
use crate::random::Random;
use crate::requires::{self, Place};

/// The ledger of wide rows, and that of the closings.
const WIDE: usize = 0;
const SHORT: usize = 1;

fn offer(place: usize, conditions: &[u64], outputs: &[u64]) -> Call {
    let mut outputs = outputs.to_vec();
    outputs.sort_unstable();
    Call::Offer {
        place,
        meter: AMPLE,
        conditions: conditions.to_vec(),
        outputs,
        source: 0,
    }
}

/// The region that marks these codes.
fn region(marks: &[u64]) -> Region {
    let atoms = |sign: u64| -> Vec<u64> {
        let signed = marks.iter().filter(|code| *code % 2 == sign);
        let mut atoms: Vec<u64> = signed.map(|code| code / 2).collect();
        atoms.sort_unstable();
        atoms
    };
    Region {
        held: atoms(1),
        cut: atoms(0),
    }
}

fn close(marks: &[u64]) -> Call {
    Call::Close {
        place: SHORT,
        meter: AMPLE,
        region: region(marks),
    }
}

/// Rows of 64 outputs, scalar and packed: deductions and closings with each place contradicted.
fn wide(random: &mut Random, atoms: u64, calls: &mut Vec<Call>) {
    calls.push(roomy(WIDE, atoms, 8, 0));
    for (position, packed) in [false, true].into_iter().enumerate() {
        let row = requires::row(random, atoms, packed);
        calls.push(offer(WIDE, &row.conditions, &row.outputs));
        for place in Place::ALL {
            let region = region(&row.marks(random, place));
            calls.push(Call::Deduce {
                place: WIDE,
                meter: AMPLE,
                position: position as u64,
                region: region.clone(),
            });
            if random.chance(1, 4) {
                calls.push(Call::Close {
                    place: WIDE,
                    meter: AMPLE,
                    region,
                });
            }
        }
    }
}

/// Different atoms, each with a sign.
fn literals<const N: usize>(random: &mut Random, atoms: u64) -> [u64; N] {
    let mut chosen: Vec<u64> = Vec::new();
    while chosen.len() < N {
        let atom = random.below(atoms);
        if !chosen.contains(&atom) {
            chosen.push(atom);
        }
    }
    let codes: Vec<u64> = chosen
        .iter()
        .map(|atom| 2 * atom + random.below(2))
        .collect();
    codes.try_into().expect("so many")
}

/// A chain of which each row's output is the next one's condition: where the last output is contradicted, each row requires in turn. In
/// one ledger of two a row without conditions is against what is required last.
fn chain(random: &mut Random, atoms: u64, calls: &mut Vec<Call>) {
    let [first, second, third, last] = literals(random, atoms);
    let mut rows = vec![
        (vec![third], vec![last]),
        (vec![second], vec![third]),
        (vec![first], vec![second]),
    ];
    if random.chance(1, 2) {
        rows.push((Vec::new(), vec![first]));
    }
    if random.chance(1, 2) {
        random.shuffle(&mut rows);
    }
    calls.push(roomy(SHORT, atoms, 8, 0));
    calls.extend(
        rows.iter()
            .map(|(conditions, outputs)| offer(SHORT, conditions, outputs)),
    );
    calls.push(close(&[last ^ 1]));
    calls.push(close(&[last ^ 1, second ^ 1]));
    calls.push(close(&[]));
}

/// A row that requires by its greater output, and one that then has the region contradict its lesser: what is named is of the first reading.
fn late(random: &mut Random, atoms: u64, calls: &mut Vec<Call>) {
    let [condition, one, other] = literals(random, atoms);
    let (lesser, greater) = (one.min(other), one.max(other));
    calls.push(roomy(SHORT, atoms, 8, 0));
    calls.push(offer(SHORT, &[condition], &[lesser, greater]));
    calls.push(offer(SHORT, &[condition ^ 1], &[lesser ^ 1]));
    calls.push(close(&[greater ^ 1]));
    calls.push(close(&[lesser ^ 1, greater ^ 1]));
    calls.push(close(&[lesser ^ 1, greater]));
}

/// The calls of a script.
pub fn script(random: &mut Random) -> Vec<Call> {
    let mut calls = Vec::new();
    let atoms = random.pick(&requires::ATOMS);
    wide(random, atoms, &mut calls);
    let atoms = random.pick(&[4, 64, 130, 32_768, 65_537]);
    chain(random, atoms, &mut calls);
    late(random, atoms, &mut calls);
    calls
}

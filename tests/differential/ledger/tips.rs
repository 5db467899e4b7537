//! Scripts of Tips: a full tier of rows of both sources, with a floor about as high as its founded count, and one call on it: an offer of
//! either source that is new, joins a row, replaces some, or is subsumed; or a transfer to it or from it.

use crate::call::{Call, Field};
use crate::parts::{AMPLE, roomy};
use crate::random::Random;

/// The atoms, and the first of those that outputs name.
const ATOMS: u64 = 64;
const OUTPUTS: u64 = 40;
/// The condition that all rows have.
const COMMON: u64 = 1;
/// The ledger that is looked at, and the other one of a transfer.
const FULL: usize = 0;
const OTHER: usize = 1;

/// The rows of a ledger: their sources.
type Sources = Vec<u64>;

fn sources(random: &mut Random) -> Sources {
    let (rows, tips) = (random.within(1, 5), random.pick(&[0, 1, 2, 2, 3, 4]));
    (0..rows)
        .map(|_| u64::from(random.chance(tips, 4)))
        .collect()
}

/// A floor at the founded count, one beside it, or any.
fn floor(random: &mut Random, sources: &[u64]) -> u64 {
    let founded = sources.iter().filter(|source| **source == 0).count() as u64;
    let any = random.below(sources.len() as u64 + 2);
    random.pick(&[
        founded,
        founded,
        founded + 1,
        founded.saturating_sub(1),
        any,
    ])
}

/// The conditions of the row with this number: one that all have, and one of its own.
fn conditions(row: u64) -> Vec<u64> {
    vec![COMMON, 2 * row + 3]
}

fn output(row: u64) -> u64 {
    2 * (OUTPUTS + row)
}

fn offer(place: usize, conditions: Vec<u64>, mut outputs: Vec<u64>, source: u64) -> Call {
    outputs.sort_unstable();
    Call::Offer {
        place,
        meter: AMPLE,
        conditions,
        outputs,
        source,
    }
}

/// A ledger with rows of these sources, numbered from `first` on; some have hits, and in some ledgers all have the same born.
fn ledger(
    random: &mut Random,
    place: usize,
    (sources, room, first): (&[u64], u64, u64),
    calls: &mut Vec<Call>,
) {
    let founded_floor = floor(random, sources);
    calls.push(roomy(
        place,
        ATOMS,
        sources.len() as u64 + room,
        founded_floor,
    ));
    if random.chance(1, 4) {
        calls.push(Call::Set {
            place,
            field: Field::Born,
            value: u64::MAX,
        });
    }
    let most = random.pick(&[0, 1, 2]);
    for (number, source) in sources.iter().enumerate() {
        let row = first + number as u64;
        calls.push(offer(place, conditions(row), vec![output(row)], *source));
    }
    for position in 0..sources.len() as u64 {
        let hits = random.below(most + 1);
        calls.extend((0..hits).map(|_| Call::Hit { place, position }));
    }
}

/// The offer that is looked at, of a ledger of so many rows.
fn offered(random: &mut Random, rows: u64) -> Call {
    let row = random.below(rows);
    let (new, outputs) = (rows + 1, vec![output(row)]);
    let source = random.below(2);
    let (conditions, outputs) = match random.below(5) {
        // It joins a row.
        0 => (conditions(row), vec![output(new)]),
        // It is subsumed by one.
        1 => ([conditions(row), vec![2 * new + 3]].concat(), outputs),
        // It replaces one.
        2 => (vec![2 * row + 3], outputs),
        // It replaces all.
        3 => (vec![COMMON], (0..rows).map(output).collect()),
        _ => (conditions(new), vec![output(new)]),
    };
    offer(FULL, conditions, outputs, source)
}

/// A transfer between the ledger and another, whose rows are new to it, or in part the same.
fn transferred(random: &mut Random, rows: u64, calls: &mut Vec<Call>) {
    let others = sources(random);
    let first = random.below(rows + 1);
    let room = random.pick(&[0, 0, 1, 4]);
    ledger(random, OTHER, (&others, room, first), calls);
    if random.chance(1, 2) {
        // A row of the one joins a row of the other.
        let source = random.below(2);
        let joining = offer(OTHER, conditions(0), vec![output(first + 9)], source);
        calls.push(joining);
    }
    let (tier, store) = random.pick(&[(FULL, OTHER), (OTHER, FULL)]);
    let meter = AMPLE;
    calls.push(if random.chance(1, 2) {
        Call::Seed { tier, store, meter }
    } else {
        Call::Deliver { tier, store, meter }
    });
}

/// The calls of a script.
pub fn script(random: &mut Random) -> Vec<Call> {
    let mut calls = Vec::new();
    for _ in 0..6 {
        let sources = sources(random);
        let rows = sources.len() as u64;
        let room = u64::from(random.chance(1, 6));
        ledger(random, FULL, (&sources, room, 0), &mut calls);
        if random.chance(1, 2) {
            transferred(random, rows, &mut calls);
        } else {
            let offer = offered(random, rows);
            calls.push(offer);
        }
    }
    calls
}

//! The parts of random calls: meters, rows, regions, cursors. They are made from a few atoms and from the rows that a ledger has, so
//! that rows subsume, join and replace each other and every answer comes up.

use oracle::{Cursor, Ledger, Limits, Row};

use crate::call::{Call, Meter, Region};
use crate::far::SPAN;
use crate::random::Random;

/// A row's conditions and outputs.
pub type Codes = (Vec<u64>, Vec<u64>);

/// More than any call of a script of one kind ticks.
pub const AMPLE: Meter = Meter {
    charged: 0,
    limit: 1_000_000,
};

/// A ledger for the largest rows, with more attempts and reads than a script of one kind uses.
pub fn roomy(place: usize, atoms: u64, tier_rows: u64, founded_floor: u64) -> Call {
    let limits = Limits {
        atoms,
        tier_rows,
        founded_conditions: 16,
        founded_outputs: 64,
        founded_floor,
        founded_attempts: 256,
        founded_work: 1_000_000,
        share_work: 1_000_000,
        share_conditions: 8,
        share_hits: 2,
    };
    Call::Make {
        place,
        limits,
        number: place as u64 + 1,
    }
}

/// A number of nothing, of little, or of more than any call wants.
pub fn amount(random: &mut Random) -> u64 {
    match random.below(16) {
        0 => 0,
        1 | 2 => random.below(40),
        3 | 4 => random.below(400),
        5 | 6 => u64::MAX,
        _ => 131_072,
    }
}

/// A meter: mostly ample, often tiny. Unless it is plain it may begin anywhere, and past its limit.
pub fn meter(random: &mut Random, plain: bool) -> Meter {
    let room = match random.below(10) {
        0 | 1 => random.below(16),
        2 => random.below(200),
        3 => random.below(3_000),
        4 => u64::MAX,
        _ => 1_000_000,
    };
    if plain || random.chance(2, 3) {
        return Meter::fresh(room);
    }
    if random.chance(1, 10) {
        let charged = random.within(1, 9);
        return Meter {
            charged,
            limit: random.below(charged),
        };
    }
    let most = u64::MAX - room;
    let charged = random.pick(&[1, 77, most]).min(most);
    Meter {
        charged,
        limit: charged + room,
    }
}

/// Atoms that lie together, or all over.
pub fn pool(random: &mut Random, atoms: u64, count: u64) -> Vec<u64> {
    let first = random.below(atoms);
    let close = random.chance(1, 2);
    let atom = |random: &mut Random, place: u64| {
        if close {
            (first + place) % atoms
        } else {
            random.below(atoms)
        }
    };
    ascending((0..count).map(|place| atom(random, place)).collect())
}

fn ascending(mut list: Vec<u64>) -> Vec<u64> {
    list.sort_unstable();
    list.dedup();
    list
}

/// So many codes of the atoms, ascending; the same atom twice only where both signs may occur.
fn codes(random: &mut Random, pool: &[u64], count: u64, both_signs: bool) -> Vec<u64> {
    let mut codes: Vec<u64> = Vec::new();
    for _ in 0..count {
        let code = 2 * random.pick(pool) + u64::from(random.chance(3, 4));
        if both_signs || codes.iter().all(|other| other / 2 != code / 2) {
            codes.push(code);
        }
    }
    ascending(codes)
}

/// The largest row there is over the atoms: up to 16 conditions and 64 outputs, together or apart.
fn large(random: &mut Random, atoms: u64) -> Codes {
    let step = random.pick(&[1, 1, (atoms / 64).max(1)]);
    let sign = random.below(2);
    let list = |count: u64| (0..count.min(atoms)).map(move |place| place * step % atoms);
    let conditions: Vec<u64> = list(16).map(|atom| 2 * atom + sign).collect();
    let mut outputs: Vec<u64> = list(64).map(|atom| 2 * atom + 1).collect();
    if random.chance(1, 2) {
        outputs = list(32).flat_map(|atom| [2 * atom, 2 * atom + 1]).collect();
    }
    (ascending(conditions), ascending(outputs))
}

/// A row near one of the ledger's: with the same conditions, or with a literal more or less.
fn near(random: &mut Random, row: Row, pool: &[u64]) -> Codes {
    let (mut conditions, mut outputs) = (row.conditions, row.outputs);
    for _ in 0..random.below(3) {
        let code = 2 * random.pick(pool) + random.below(2);
        match random.below(5) {
            0 => drop(conditions.pop()),
            1 => drop(outputs.pop()),
            2 if conditions.len() < 16 && conditions.iter().all(|other| other / 2 != code / 2) => {
                conditions.push(code)
            }
            _ if outputs.len() < 64 => outputs.push(code),
            _ => {}
        }
    }
    (ascending(conditions), ascending(outputs))
}

/// A row for the ledger, within its limits.
pub fn row(random: &mut Random, ledger: &Ledger, pool: &[u64]) -> Codes {
    let limits = ledger.limits();
    let rows = ledger.rows() as u64;
    let (mut conditions, mut outputs) = if rows > 0 && random.chance(1, 3) {
        let position = random.below(rows) as usize;
        near(random, ledger.row(position), pool)
    } else if random.chance(1, 40) {
        large(random, limits.atoms)
    } else {
        let counts = (
            random.pick(&[0, 1, 1, 1, 2, 2, 3, 4]),
            random.pick(&[0, 1, 1, 1, 2, 2, 3, 5]),
        );
        (
            codes(random, pool, counts.0, false),
            codes(random, pool, counts.1, true),
        )
    };
    let known = |code: &u64| code / 2 < limits.atoms;
    conditions.retain(known);
    outputs.retain(known);
    conditions.truncate(limits.founded_conditions as usize);
    outputs.truncate(limits.founded_outputs as usize);
    (conditions, outputs)
}

/// What is no row any more, or may be none: turned, doubled, too long, with an unknown atom, with a code that is the same in its low bits.
pub fn spoil(random: &mut Random, ledger: &Ledger, (conditions, outputs): &mut Codes) {
    let limits = ledger.limits();
    let list = if random.chance(1, 2) {
        &mut *conditions
    } else {
        &mut *outputs
    };
    match random.below(6) {
        0 => list.reverse(),
        1 => list.extend(list.clone().last()),
        2 => list.push(2 * limits.atoms + random.below(2)),
        3 => list.push(random.pick(&[u64::MAX, 1 << 32, SPAN, 2 * SPAN])),
        4 => {
            let more = random.pick(&[SPAN, 1 << 32]);
            list.last_mut().into_iter().for_each(|code| *code += more);
        }
        _ => {
            *conditions = (0..limits.founded_conditions + random.below(2))
                .map(|atom| 2 * atom)
                .collect();
            *outputs = (0..limits.founded_outputs + random.below(2)).collect();
        }
    }
}

/// Marks for a row: its conditions hold, or all but one; outputs are contradicted or true.
fn marks(random: &mut Random, row: &Row) -> Vec<u64> {
    let open = random.below(row.conditions.len().max(1) as u64) as usize;
    let style = random.below(5);
    let mut marks: Vec<u64> = Vec::new();
    for (place, code) in row.conditions.iter().enumerate() {
        let marked = match style {
            0 => true,
            1 | 2 => place != open,
            _ => random.chance(2, 3),
        };
        if marked {
            marks.push(code ^ u64::from(style == 4 && random.chance(1, 4)));
        }
    }
    if style == 1 && !row.outputs.is_empty() {
        marks.push(random.pick(&row.outputs) ^ 1);
    }
    let share = random.pick(&[0, 1, 2, 4]);
    marks.extend(row.outputs.iter().filter_map(|code| {
        let marked = random.below(4) < share;
        marked.then(|| code ^ random.below(2))
    }));
    marks
}

/// A region made for a row, with some atoms beside. Of two marks of an atom the first counts.
pub fn region(random: &mut Random, row: Option<Row>, atoms: u64, pool: &[u64]) -> Region {
    let mut marks = row.map_or(Vec::new(), |row| marks(random, &row));
    let beside = random.pick(&[0, 0, 1, 2, 5]);
    marks.extend((0..beside).map(|_| 2 * random.pick(pool) + random.below(2)));
    let mut region = Region::default();
    for code in marks.into_iter().filter(|code| code / 2 < atoms) {
        let atom = code / 2;
        if !region.held.contains(&atom) && !region.cut.contains(&atom) {
            let list = if code % 2 == 1 {
                &mut region.held
            } else {
                &mut region.cut
            };
            list.push(atom);
        }
    }
    region.held.sort_unstable();
    region.cut.sort_unstable();
    region
}

/// What is no region any more: an atom on both sides, or one that is not there.
pub fn unmake(random: &mut Random, region: &mut Region, atoms: u64) {
    let atom = random.below(atoms);
    let list = if random.chance(1, 2) {
        &mut region.held
    } else {
        &mut region.cut
    };
    match random.below(3) {
        0 => list.push(atoms),
        1 => list.push(random.pick(&[atoms + 1, u64::MAX, atoms + 64])),
        _ => {
            region.held.push(atom);
            region.cut.push(atom);
        }
    }
}

/// A cursor of the row: at the start, past some outputs, or inside a group; a part of them is damaged.
pub fn cursor(random: &mut Random, row: &Row) -> [u64; 4] {
    let groups = &row.groups[row.condition_groups as usize..];
    let mut cursor = [0; 4];
    if row.is_packed() {
        let next = random.below(groups.len() as u64 + 1);
        if next > 0 {
            let (index, present, absent) = groups[next as usize - 1];
            cursor = [next, index, present & random.word(), absent & random.word()];
        }
    } else {
        cursor[0] = random.below(row.outputs.len() as u64 + 1);
    }
    if random.chance(1, 12) {
        let bit = 1 << random.below(64);
        let word = random.pick(&[1, 2, u64::MAX, bit]);
        cursor[random.below(4) as usize] ^= word;
    }
    cursor
}

/// The fields of a cursor.
pub fn fields(words: [u64; 4]) -> Cursor {
    let [next, word, present, absent] = words;
    Cursor {
        next: next as usize,
        word: word as usize,
        present,
        absent,
    }
}

/// The words of a cursor.
pub fn words(cursor: Cursor) -> [u64; 4] {
    let Cursor {
        next,
        word,
        present,
        absent,
    } = cursor;
    [next as u64, word as u64, present, absent]
}

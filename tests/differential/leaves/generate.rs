//! Random cases. Atoms are few and close, or many and far apart; second rows, regions and cursors are made from the first
//! row, so that every answer comes up.

use oracle::literals::mask_words;

use crate::case::{Case, Function, Row};
use crate::far::{self, SPAN};
use crate::random::Random;
use crate::requires::{self, Place};
use crate::rust;

/// Numbers of atoms that are tried: tiny ones, both sides of a word's end. Those of `far` are tried as often.
const ATOMS: [u64; 11] = [1, 2, 3, 5, 9, 63, 64, 65, 128, 1000, 32_767];

/// A number of atoms.
fn atoms(random: &mut Random) -> u64 {
    if random.chance(1, 2) {
        far::atoms(random)
    } else {
        random.pick(&ATOMS)
    }
}

/// A pool of codes that lie together: all of a few words, or all over the atoms; over many atoms also on both sides of a bound.
fn pool(random: &mut Random, atoms: u64) -> Vec<u64> {
    let mut codes: Vec<u64> = Vec::new();
    if atoms > far::HALF && random.chance(1, 3) {
        let pool = far::pool(random, atoms, false);
        codes.extend(pool.iter().flat_map(|atom| [2 * atom, 2 * atom + 1]));
    } else if random.chance(1, 2) {
        let spread = random.within(1, 90);
        codes.extend((0..spread).map(|_| random.below(2 * atoms)));
    } else {
        for _ in 0..random.within(1, 4) {
            let first = random.below(atoms) / 64 * 64;
            let width = random.pick(&[2, 8, 20, 64]);
            codes.extend(2 * first..(2 * (first + width)).min(2 * atoms));
        }
    }
    codes.sort_unstable();
    codes.dedup();
    codes
}

/// At most `most` of the codes, still in order.
fn some(random: &mut Random, codes: &[u64], most: u64) -> Vec<u64> {
    let mut chosen = codes.to_vec();
    while chosen.len() as u64 > most {
        chosen.remove(random.below(chosen.len() as u64) as usize);
    }
    chosen
}

/// Of two codes of one atom the first.
fn one_sign(codes: Vec<u64>) -> Vec<u64> {
    let mut kept: Vec<u64> = Vec::new();
    for code in codes {
        if kept.last().is_none_or(|last| last / 2 != code / 2) {
            kept.push(code);
        }
    }
    kept
}

/// How many: often none, often all there may be.
fn count(random: &mut Random, most: u64) -> u64 {
    match random.below(8) {
        0 => 0,
        1 => most,
        2 | 3 => random.below(4),
        _ => random.below(most + 1),
    }
}

fn row(random: &mut Random, atoms: u64) -> Row {
    let conditions = pool(random, atoms);
    let outputs = if random.chance(1, 2) {
        conditions.clone()
    } else {
        pool(random, atoms)
    };
    // A sign for each atom, so that absent is not favoured.
    let signs = random.word();
    let signed = conditions
        .iter()
        .map(|code| code / 2 * 2 + (signs >> (code / 2 % 64) & 1))
        .collect();
    let (most, outputs_most) = (count(random, rust::MOST.0), count(random, rust::MOST.1));
    Row {
        conditions: some(random, &one_sign(signed), most),
        outputs: some(random, &outputs, outputs_most),
    }
}

/// Codes near the given ones: some left out, some put in.
fn near(random: &mut Random, codes: &[u64], atoms: u64, most: u64) -> Vec<u64> {
    let mut changed = codes.to_vec();
    for _ in 0..random.below(4) {
        if !changed.is_empty() && random.chance(1, 2) {
            changed.remove(random.below(changed.len() as u64) as usize);
        } else {
            changed.push(random.below(2 * atoms));
        }
    }
    changed.sort_unstable();
    changed.dedup();
    some(random, &changed, most)
}

/// A second row: near the first, equal in one side or in both, or another altogether.
fn other(random: &mut Random, first: &Row, atoms: u64) -> Row {
    if random.chance(1, 8) {
        return row(random, atoms);
    }
    let conditions = if random.chance(2, 3) {
        first.conditions.clone()
    } else {
        one_sign(near(random, &first.conditions, atoms, rust::MOST.0))
    };
    let outputs = match random.below(4) {
        0 => first.outputs.clone(),
        1 => some(random, &first.outputs, rust::MOST.1 / 2),
        _ => near(random, &first.outputs, atoms, rust::MOST.1),
    };
    Row {
        conditions,
        outputs,
    }
}

/// The literals of two words of masks, held or cut.
fn mark(held: &mut [u64], cut: &mut [u64], code: u64) {
    let (word, bit) = (code as usize / 128, 1 << (code / 2 % 64));
    let (set, clear) = if code % 2 == 1 {
        (held, cut)
    } else {
        (cut, held)
    };
    set[word] |= bit;
    clear[word] &= !bit;
}

fn unmark(held: &mut [u64], cut: &mut [u64], code: u64) {
    let (word, bit) = (code as usize / 128, 1 << (code / 2 % 64));
    held[word] &= !bit;
    cut[word] &= !bit;
}

/// A region by a row: its outputs true, contradicted or open; then its conditions true, but for one or some.
fn region(random: &mut Random, row: &Row, atoms: u64) -> (Vec<u64>, Vec<u64>) {
    let words = mask_words(atoms);
    let (mut held, mut cut) = (vec![0; words], vec![0; words]);
    for _ in 0..random.below(20) {
        mark(&mut held, &mut cut, random.below(2 * atoms));
    }
    let (true_part, false_part) = random.pick(&[(0, 0), (4, 0), (3, 1), (1, 1), (0, 4), (2, 0)]);
    for &code in &row.outputs {
        let draw = random.below(4);
        if draw < true_part {
            mark(&mut held, &mut cut, code);
        } else if draw < true_part + false_part {
            mark(&mut held, &mut cut, code ^ 1);
        }
    }
    if random.chance(7, 8) {
        for &code in &row.conditions {
            mark(&mut held, &mut cut, code);
        }
        let exceptions = random.pick(&[0, 0, 1, 1, 1, 2]);
        for _ in 0..exceptions {
            if row.conditions.is_empty() {
                break;
            }
            let code = random.pick(&row.conditions);
            unmark(&mut held, &mut cut, code);
            if random.chance(1, 4) {
                mark(&mut held, &mut cut, code ^ 1);
            }
        }
    }
    (held, cut)
}

/// A cursor of the row: anywhere in a scalar one, with bits of any group loaded in a packed one.
fn cursor(random: &mut Random, row: &Row) -> [u64; 4] {
    let form = rust::form(row);
    if form.groups.is_empty() {
        return [random.below(row.outputs.len() as u64 + 1), 0, 0, 0];
    }
    let groups = &form.groups[form.condition_groups as usize..];
    let next = random.below(groups.len() as u64 + 1);
    if next == 0 {
        return [0; 4];
    }
    let (word, present, absent) = groups[next as usize - 1];
    let some = [0, u64::MAX, random.word(), random.word() & random.word()];
    [
        next,
        word,
        present & random.pick(&some),
        absent & random.pick(&some),
    ]
}

/// A maximum near the union's length, or any.
fn maximum(random: &mut Random, row: &Row, other: &Row) -> u64 {
    let mut union = [&row.outputs[..], &other.outputs].concat();
    union.sort_unstable();
    union.dedup();
    match random.below(8) {
        0 => rust::MOST.1,
        1 => random.below(rust::MOST.1 + 1),
        draw => (union.len() as u64 + draw % 3)
            .saturating_sub(1)
            .min(rust::MOST.1),
    }
}

/// Words that no region need be.
fn words(random: &mut Random) -> Vec<u64> {
    let mut word = |_| {
        let some = [
            0,
            1,
            1 << 63,
            random.word(),
            1 << random.below(64),
            u64::MAX,
        ];
        random.pick(&some)
    };
    let length = word(0) % 6;
    (0..length).map(word).collect()
}

/// A case of the function, with all it could want to pay.
pub fn case(random: &mut Random, function: Function) -> Case {
    let mut case = Case::new(function, atoms(random));
    case.sharing = random.chance(1, 2);
    case.row = row(random, case.atoms);
    match function {
        Function::Prepare => {}
        Function::Includes => {
            case.other = other(random, &case.row, case.atoms);
            case.row.conditions.clear();
            case.other.conditions.clear();
            case.number = random.below(4);
        }
        Function::Subsumes | Function::SubsumedBy => {
            case.other = other(random, &case.row, case.atoms);
        }
        Function::UnionOutputs => {
            case.other = other(random, &case.row, case.atoms);
            case.number = maximum(random, &case.row, &case.other);
        }
        Function::Deduction => (case.held, case.cut) = region(random, &case.row, case.atoms),
        Function::NextOutput => {
            (case.held, case.cut) = region(random, &case.row, case.atoms);
            case.cursor = cursor(random, &case.row);
        }
        Function::Decide => {
            (case.held, case.cut) = region(random, &case.row, case.atoms);
            case.number = match random.below(8) {
                0 => random.pick(&[
                    case.atoms,
                    case.atoms + 1,
                    64 * mask_words(case.atoms) as u64,
                    u64::MAX,
                ]),
                _ => random.below(case.atoms),
            };
            case.value = random.chance(1, 2);
        }
        Function::NextFrom | Function::Contains | Function::Insert => {
            case.held = words(random);
            case.number = random.below(64 * case.held.len() as u64 + 70);
        }
    }
    case
}

/// A deduction of a row of 64 outputs, on a region under which it requires something.
pub fn required(random: &mut Random) -> Case {
    let mut case = Case::new(Function::Deduction, random.pick(&requires::ATOMS));
    let packed = random.chance(1, 2);
    let wide = requires::row(random, case.atoms, packed);
    let words = mask_words(case.atoms);
    (case.held, case.cut) = (vec![0; words], vec![0; words]);
    let place = random.pick(&Place::ALL);
    for code in wide.marks(random, place) {
        mark(&mut case.held, &mut case.cut, code);
    }
    case.row = Row {
        conditions: wide.conditions,
        outputs: wide.outputs,
    };
    case
}

/// The largest row: 16 conditions and 64 outputs in so many words, every atom of them with both signs.
pub fn largest(words: u64) -> Row {
    let atom = |place: u64| place % words * 64 + place / words;
    let mut conditions: Vec<u64> = (0..16).map(|place| 2 * atom(place) + place % 2).collect();
    let mut outputs: Vec<u64> = (0..64)
        .map(|place| 2 * atom(place / 2) + place % 2)
        .collect();
    conditions.sort_unstable();
    outputs.sort_unstable();
    Row {
        conditions,
        outputs,
    }
}

/// The groups on both sides of the end of 8 bits.
pub const GROUPS: [u64; 4] = [0, 255, 256, 511];
/// The groups on both sides of 32,768 and of 65,536 atoms, that of atom 200,000, and the last.
pub const FAR_GROUPS: [u64; 6] = [511, 512, 1_023, 1_024, 3_125, 16_383];

/// Rows whose groups are these, each group with so many literals: two on either side, 256 apart, and all four on both; the same with the
/// groups of many atoms, where groups 512 apart hold codes with the same low 16 bits.
pub fn far_groups(literals: u64) -> [Row; 4] {
    let codes = |groups: &[u64]| -> Vec<u64> {
        let atoms = groups
            .iter()
            .flat_map(|group| (0..literals).map(move |place| 64 * group + place));
        atoms.map(|atom| 2 * atom + atom % 2).collect()
    };
    let row = |conditions: &[u64], outputs: &[u64]| Row {
        conditions: codes(conditions),
        outputs: codes(outputs),
    };
    [
        row(&[0, 256], &[255, 511]),
        row(&GROUPS, &GROUPS),
        row(&[0, 512], &[511, 1_023]),
        row(&FAR_GROUPS, &FAR_GROUPS),
    ]
}

/// Breaks one thing of a case, where there is something to break: what it is called with may then be unfit.
pub fn damage(random: &mut Random, case: &mut Case) {
    let odd = [case.atoms * 2, u64::MAX, random.word(), 1];
    let odd = random.pick(&odd);
    let more = random.pick(&[SPAN, 1 << 32]);
    let row = if case.function.has_other() && random.chance(1, 2) {
        &mut case.other
    } else {
        &mut case.row
    };
    match random.below(11) {
        0 => row.conditions.push(odd),
        1 => row.outputs.push(odd),
        2 => row.outputs.reverse(),
        3 => row.conditions.insert(0, odd),
        4 => row.outputs.extend(0..65),
        5 => case.atoms = random.pick(&[0, far::TOO_MANY, u64::MAX, case.atoms / 2]),
        6 => case.held.push(0),
        7 => {
            let mask = if random.chance(1, 2) {
                &mut case.held
            } else {
                &mut case.cut
            };
            if let Some(last) = mask.last_mut() {
                *last |= odd;
            }
        }
        8 => case.cursor[random.below(4) as usize] ^= odd,
        9 => row
            .outputs
            .last_mut()
            .into_iter()
            .for_each(|code| *code += more),
        _ => case.number = odd,
    }
    if case.function == Function::Includes {
        // Inclusion reads outputs alone.
        case.row.conditions.clear();
        case.other.conditions.clear();
    }
}

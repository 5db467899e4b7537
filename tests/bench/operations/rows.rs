//! Random rows and regions over 4,096 atoms. Every atom has a value, the same for all rows of a ledger: a region marks atoms with
//! their values, and an output is an atom with its value, so that no closing ends in a conflict halfway.

use super::random::Random;

pub const ATOMS: u64 = 4_096;
pub const ROWS: usize = 256;
pub const WORDS: usize = 64;

/// Conditions and outputs, as ascending codes.
pub struct Row {
    pub conditions: Vec<u64>,
    pub outputs: Vec<u64>,
}

/// A region's held and cut words.
#[derive(Clone)]
pub struct Marks {
    pub held: Vec<u64>,
    pub cut: Vec<u64>,
}

/// How the rows of a ledger look.
#[derive(Clone, Copy)]
pub struct Kind {
    pub name: &'static str,
    pub conditions: usize,
    pub outputs: usize,
    /// In how many neighbouring words the atoms of the conditions lie, and those of the outputs.
    pub spans: (u64, u64),
}

pub const KINDS: [Kind; 3] = [
    Kind {
        name: "scalar",
        conditions: 4,
        outputs: 8,
        spans: (64, 64),
    },
    Kind {
        name: "packed",
        conditions: 4,
        outputs: 8,
        spans: (1, 2),
    },
    Kind {
        name: "16 and 64",
        conditions: 16,
        outputs: 64,
        spans: (64, 64),
    },
];

/// The values of the atoms.
fn value(values: &[bool], atom: u64) -> bool {
    values[atom as usize]
}

/// So many atoms within neighbouring words, ascending.
fn atoms(random: &mut Random, words: u64, count: usize) -> Vec<u64> {
    let first = 64 * random.below(ATOMS / 64 - words + 1);
    let mut atoms: Vec<u64> = Vec::new();
    while atoms.len() < count {
        let atom = first + random.below(64 * words);
        if !atoms.contains(&atom) {
            atoms.push(atom);
        }
    }
    atoms.sort_unstable();
    atoms
}

/// Atoms with their values, as codes.
fn codes(values: &[bool], atoms: &[u64]) -> Vec<u64> {
    let code = |&atom: &u64| 2 * atom + u64::from(value(values, atom));
    atoms.iter().map(code).collect()
}

/// Rows that fire one after another where the first of them does.
pub const CHAIN: usize = 4;

/// A ledger's rows, and the values of the atoms.
pub struct World {
    pub values: Vec<bool>,
    pub rows: Vec<Row>,
}

impl World {
    /// Of every four rows each but the last has its conditions among the outputs of the one after it: a round of a closing goes
    /// up the positions, so they fire in one round each.
    pub fn new(kind: Kind, seed: u64) -> Self {
        let mut random = Random(seed);
        let values: Vec<bool> = (0..ATOMS).map(|_| random.chance(1, 2)).collect();
        let row = |_| Row {
            conditions: codes(&values, &atoms(&mut random, kind.spans.0, kind.conditions)),
            outputs: codes(&values, &atoms(&mut random, kind.spans.1, kind.outputs)),
        };
        let mut rows: Vec<Row> = (0..ROWS).map(row).collect();
        for position in (0..ROWS).filter(|position| position % CHAIN != CHAIN - 1) {
            rows[position].conditions = rows[position + 1].outputs[..kind.conditions].to_vec();
        }
        Self { values, rows }
    }

    /// Rows of which every eighth has the same conditions: they are joined, or say nothing new.
    pub fn joining(seed: u64) -> Self {
        let mut world = Self::new(KINDS[0], seed);
        for position in ROWS / 8..ROWS {
            world.rows[position].conditions = world.rows[position % (ROWS / 8)].conditions.clone();
        }
        world
    }

    /// Marks each of the atoms wanted, so many times in a thousand.
    pub fn marks(&self, random: &mut Random, chance: u64, wanted: impl Fn(u64) -> bool) -> Marks {
        let mut marks = Marks {
            held: vec![0; WORDS],
            cut: vec![0; WORDS],
        };
        for atom in (0..ATOMS).filter(|&atom| wanted(atom)) {
            if random.chance(chance, 1_000) {
                marks.set(2 * atom + u64::from(value(&self.values, atom)));
            }
        }
        marks
    }

    /// The same, and all conditions of the last rows of two chains.
    pub fn marks_chains(&self, random: &mut Random, chance: u64) -> Marks {
        let mut marks = self.marks(random, chance, |_| true);
        for _ in 0..2 {
            let chain = random.below((ROWS / CHAIN) as u64) as usize;
            let row = &self.rows[CHAIN * chain + CHAIN - 1];
            row.conditions.iter().for_each(|&code| marks.set(code));
        }
        marks
    }
}

impl Marks {
    fn set(&mut self, code: u64) {
        let mask = if code % 2 == 1 {
            &mut self.held
        } else {
            &mut self.cut
        };
        mask[code as usize / 128] |= 1 << (code / 2 % 64);
    }
}

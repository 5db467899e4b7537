//! Rows of 64 outputs, and regions that contradict chosen ones of them: what random rows and regions seldom are.

use crate::random::Random;

/// The atoms that such a row lies among: 64 words, eight times as many, and more than there are codes of 16 bits.
pub const ATOMS: [u64; 5] = [4_096, 4_097, 32_768, 65_537, 200_001];

/// A row, by its codes.
pub struct Wide {
    pub conditions: Vec<u64>,
    pub outputs: Vec<u64>,
}

/// Which outputs are contradicted.
#[derive(Clone, Copy)]
pub enum Place {
    First,
    Last,
    Several,
    /// One sign of an atom whose other sign is an output too.
    OneSign,
}

impl Place {
    pub const ALL: [Self; 4] = [Self::First, Self::Last, Self::Several, Self::OneSign];
}

/// So many atoms, ascending: one in each word, or one beside the other.
fn spread(random: &mut Random, atoms: u64, count: u64, packed: bool) -> Vec<u64> {
    if packed {
        let first = random.below(atoms - count);
        return (first..first + count).collect();
    }
    let words = atoms / 64 / count;
    let atom = |place: u64| place * words * 64 + random.below(64);
    (0..count).map(atom).collect()
}

/// A sign for each atom, and for so many of them both.
fn signed(random: &mut Random, atoms: &[u64], both: usize) -> Vec<u64> {
    let twice = random.below((atoms.len() - both + 1) as u64) as usize;
    let mut codes = Vec::new();
    for (place, atom) in atoms.iter().enumerate() {
        if (twice..twice + both).contains(&place) {
            codes.extend([2 * atom, 2 * atom + 1]);
        } else {
            codes.push(2 * atom + random.below(2));
        }
    }
    codes
}

/// A row of 64 outputs, one to three conditions, and some atom with both signs. It is packed where its outputs lie in few words.
pub fn row(random: &mut Random, atoms: u64, packed: bool) -> Wide {
    let both = if packed { random.pick(&[1, 3, 32]) } else { 1 };
    let chosen = spread(random, atoms, 64 - both as u64, packed);
    let outputs = signed(random, &chosen, both);
    let mut others = Vec::new();
    while others.len() < 3 {
        let atom = random.below(atoms);
        if !chosen.contains(&atom) && !others.contains(&atom) {
            others.push(atom);
        }
    }
    others.truncate(random.within(1, 3) as usize);
    others.sort_unstable();
    Wide {
        conditions: signed(random, &others, 0),
        outputs,
    }
}

impl Wide {
    /// The other sign of an output is an output too.
    fn is_double(&self, code: u64) -> bool {
        self.outputs.contains(&(code ^ 1))
    }

    /// The outputs at a place. Of the two signs of an atom at most one is there: no region contradicts both.
    fn at(&self, random: &mut Random, place: Place) -> Vec<u64> {
        let mut some = self.outputs.clone();
        random.shuffle(&mut some);
        match place {
            Place::First => self.outputs[..1].to_vec(),
            Place::Last => self.outputs[self.outputs.len() - 1..].to_vec(),
            Place::Several => {
                let single = some.iter().copied().filter(|&code| !self.is_double(code));
                let sign = random.below(2);
                let double = some.iter().copied();
                let double = double.filter(|&code| self.is_double(code) && code % 2 == sign);
                let several = random.within(2, 20) as usize;
                single.chain(double).take(several).collect()
            }
            Place::OneSign => {
                let double = some.into_iter().find(|&code| self.is_double(code));
                double.into_iter().collect()
            }
        }
    }

    /// The marks of a region, as codes, under which the row requires something: one condition is open, the outputs at the place are
    /// contradicted, and of the others some are true.
    pub fn marks(&self, random: &mut Random, place: Place) -> Vec<u64> {
        let against = self.at(random, place);
        let open = random.pick(&self.conditions);
        let holding = self.conditions.iter().copied().filter(|&code| code != open);
        let mut marks: Vec<u64> = holding.collect();
        marks.extend(against.iter().map(|code| code ^ 1));
        let others = self.outputs.iter().copied();
        let others = others.filter(|code| !against.contains(code) && !self.is_double(*code));
        marks.extend(others.filter(|_| random.chance(1, 3)));
        marks
    }
}

//! Atoms on both sides of 32,768 and of 65,536, up to the most. From 32,768 on a code has more than 16 bits: one that is cut to its low
//! bits is another literal's.

use oracle::literals::MOST_ATOMS;

use crate::random::Random;

/// The first atom whose codes have more than 16 bits.
pub const HALF: u64 = 32_768;
/// The first code of more than 16 bits, and the first atom of more.
pub const SPAN: u64 = 65_536;
/// One atom too many.
pub const TOO_MANY: u64 = MOST_ATOMS + 1;

/// Numbers of atoms at the bounds and one over, more than a tunnel line has points, and the most.
pub const ATOMS: [u64; 6] = [HALF, HALF + 1, SPAN, SPAN + 1, 200_001, MOST_ATOMS];

/// Atoms at the ends of a word, on both sides of the bounds, and the last of the larger numbers of atoms.
pub const PLACES: [u64; 10] = [
    0,
    63,
    64,
    HALF - 1,
    HALF,
    HALF + 1,
    SPAN - 1,
    SPAN,
    200_000,
    MOST_ATOMS - 1,
];

/// A number of atoms. It is seldom the most, over which a closing is lent eight megabytes.
pub fn atoms(random: &mut Random) -> u64 {
    if random.chance(1, 25) {
        return MOST_ATOMS;
    }
    random.pick(&ATOMS[..ATOMS.len() - 1])
}

/// The atoms around a bound, so many on either side.
fn around(bound: u64, width: u64) -> Vec<u64> {
    (bound - width..bound + width).collect()
}

/// Atoms to make rows of, ascending: the places, which are in different words, or what is around a bound, in two words. Where many are
/// wanted, both.
pub fn pool(random: &mut Random, atoms: u64, many: bool) -> Vec<u64> {
    let bound = random.pick(&[HALF, HALF, SPAN]);
    let width = random.pick(&[4, 8, 30]);
    let mut pool = match random.below(4) {
        _ if many => [&PLACES[..], &around(bound, 30)].concat(),
        0 => PLACES.to_vec(),
        1 | 2 => around(bound, width),
        _ => [&PLACES[..], &around(bound, width)].concat(),
    };
    pool.retain(|&atom| atom < atoms);
    pool.push(atoms - 1);
    pool.sort_unstable();
    pool.dedup();
    pool
}

/// Whether the atoms of codes lie on both sides of an atom.
pub fn splits(codes: &[u64], atom: u64) -> bool {
    let above = codes.iter().filter(|code| **code / 2 >= atom).count();
    above > 0 && above < codes.len()
}

/// Whether two of the codes have the same low 16 bits.
pub fn alike(codes: &[u64]) -> bool {
    let same = |code: &u64| codes.contains(&(code + SPAN));
    codes.iter().any(same)
}

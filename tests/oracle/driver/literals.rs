//! Codes and the Rust's literals, lists of atoms and the words of a region.

use zetesis_ferraris::regions::Literal;

/// The greatest number of atoms.
pub const MOST_ATOMS: u64 = 1_048_576;

/// The literal of a code: 2 * atom, plus 1 for present.
pub fn literal(code: u64) -> Literal {
    ((code / 2) as usize, code % 2 == 1)
}

/// The code of a literal.
pub fn code((atom, present): Literal) -> u64 {
    2 * atom as u64 + u64::from(present)
}

/// The literals of codes.
pub fn literals(codes: &[u64]) -> Vec<Literal> {
    codes.iter().copied().map(literal).collect()
}

/// The codes of literals.
pub fn codes(literals: &[Literal]) -> Vec<u64> {
    literals.iter().copied().map(code).collect()
}

/// The words of groups: the number of a mask's word, present bits, absent bits.
pub fn groups(groups: &[(usize, u64, u64)]) -> Vec<(u64, u64, u64)> {
    groups
        .iter()
        .map(|&(index, present, absent)| (index as u64, present, absent))
        .collect()
}

/// Whether the codes are a row over `atoms` atoms, with at most so many conditions and outputs.
pub fn is_row(atoms: u64, most: (u64, u64), conditions: &[u64], outputs: &[u64]) -> bool {
    let known = |codes: &[u64]| codes.iter().all(|&code| code / 2 < atoms);
    conditions.len() as u64 <= most.0
        && outputs.len() as u64 <= most.1
        && known(conditions)
        && known(outputs)
        && conditions.is_sorted_by(|left, right| left / 2 < right / 2)
        && outputs.is_sorted_by(|left, right| left < right)
}

/// The number of words of a mask.
pub fn mask_words(atoms: u64) -> usize {
    atoms.div_ceil(64) as usize
}

/// Whether two masks are a region over `atoms` atoms.
pub fn is_region(atoms: u64, held: &[u64], cut: &[u64]) -> bool {
    let words = mask_words(atoms);
    let past = |mask: &[u64]| atoms % 64 != 0 && mask[words - 1] >> (atoms % 64) != 0;
    held.len() == words
        && cut.len() == words
        && held.iter().zip(cut).all(|(held, cut)| held & cut == 0)
        && !past(held)
        && !past(cut)
}

/// The mask of a list of atoms. An atom at `atoms` or above makes it a word too long, and so no part of a region; with
/// far too many atoms there is no region, and no word is made.
pub fn mask(atoms: u64, list: &[u64]) -> Vec<u64> {
    if atoms > 2 * MOST_ATOMS {
        return Vec::new();
    }
    let unfit = list.iter().any(|&atom| atom >= atoms);
    let mut words = vec![0; mask_words(atoms) + usize::from(unfit)];
    for &atom in list.iter().filter(|&&atom| atom < atoms) {
        words[atom as usize / 64] |= 1 << (atom % 64);
    }
    words
}

/// The atoms of a mask, ascending.
pub fn atoms_of(mask: &[u64]) -> Vec<u64> {
    let marked = mask.iter().enumerate().filter(|(_, word)| **word != 0);
    let atoms = |(place, word): (usize, &u64)| {
        let (first, word) = (64 * place as u64, *word);
        (0..64)
            .filter(move |bit| word >> bit & 1 == 1)
            .map(move |bit| first + bit)
    };
    marked.flat_map(atoms).collect()
}

//! Literals, and the marks of a plan.

use crate::answers::{Refusal, answered};
use crate::boundary::{call, ledger_decide};
use crate::limits::MOST_ATOMS;
use std::ops::Not;

/// An atom with a sign: held, or cut. It is the code 2 × atom, plus 1 for held, of 32 bits.
#[derive(Clone, Copy, Debug, PartialEq, Eq, PartialOrd, Ord, Hash)]
pub struct Literal(u32);

impl Literal {
    /// The atom held. An atom that no code has gives the greatest code, which is refused wherever it is offered.
    pub const fn held(atom: u64) -> Literal {
        Literal::of_word(atom.saturating_mul(2).saturating_add(1))
    }

    /// The atom cut. An atom that no code has gives the greatest code, which is refused wherever it is offered.
    pub const fn cut(atom: u64) -> Literal {
        Literal::of_word(atom.saturating_mul(2))
    }

    /// The literal of a code.
    pub const fn from_code(code: u32) -> Literal {
        Literal(code)
    }

    /// The literal of a code in a word. One that does not fit, which no answer has, gives the greatest code.
    pub(crate) const fn of_word(word: u64) -> Literal {
        if word > u32::MAX as u64 {
            return Literal(u32::MAX);
        }
        Literal(word as u32)
    }

    /// Its code.
    pub const fn code(self) -> u32 {
        self.0
    }

    /// Its atom.
    pub const fn atom(self) -> u64 {
        self.0 as u64 / 2
    }

    /// Whether it holds its atom; else it cuts it.
    pub const fn is_held(self) -> bool {
        self.0 % 2 == 1
    }
}

/// The codes of literals, a word each, as a call is lent them.
pub(crate) fn codes(literals: &[Literal]) -> Vec<u64> {
    literals.iter().map(|literal| u64::from(literal.0)).collect()
}

/// The same atom with the opposite sign.
impl Not for Literal {
    type Output = Literal;

    fn not(self) -> Literal {
        Literal(self.0 ^ 1)
    }
}

/// The marks of a plan over some atoms: each is held, cut, or undecided.
#[derive(Clone, Debug, PartialEq, Eq)]
pub struct Region {
    atoms: u64,
    held: Vec<u64>,
    cut: Vec<u64>,
}

impl Region {
    /// Nothing decided. Refused by 6 for `atoms` outside 1 to 1,048,576.
    pub fn new(atoms: u64) -> Result<Region, Refusal> {
        let words = if atoms <= MOST_ATOMS {
            atoms.div_ceil(64) as usize
        } else {
            0
        };
        Region::from_words(atoms, vec![0; words], vec![0; words])
    }

    /// The region of given words, a bit an atom. Refused by 6 if they are none: each is ⌈atoms / 64⌉ words, with no common bit
    /// and no bit at `atoms` or above.
    pub fn from_words(atoms: u64, held: Vec<u64>, cut: Vec<u64>) -> Result<Region, Refusal> {
        let mut region = Region { atoms, held, cut };
        // No region has this atom, so that nothing is marked.
        region.ask(Literal::cut(atoms))?;
        Ok(region)
    }

    /// Marks a literal. False, and nothing is changed, if the opposite is marked or the atom is none of the region's.
    pub fn decide(&mut self, literal: Literal) -> bool {
        self.ask(literal) == Ok(true)
    }

    /// Whether the literal is marked now.
    fn ask(&mut self, literal: Literal) -> Result<bool, Refusal> {
        let (atom, value) = (literal.atom(), literal.is_held() as u64);
        let [case, ..] = answered(
            |answer| call!(ledger_decide(answer, self.atoms, [mut self.held], [mut self.cut], atom, value)),
        )?;
        Ok(case == 1)
    }

    /// The words to lend to a ledger over so many atoms: held and cut. Of a region over another number there are none: a call
    /// refuses them by 6, after the refusals that come before it. The words alone would not tell, where they are as many.
    pub(crate) fn over(&self, atoms: u64) -> (&[u64], &[u64]) {
        if self.atoms == atoms {
            (&self.held, &self.cut)
        } else {
            (&[], &[])
        }
    }

    /// As [`Region::over`], to be written.
    pub(crate) fn over_mut(&mut self, atoms: u64) -> (&mut [u64], &mut [u64]) {
        if self.atoms == atoms {
            (&mut self.held, &mut self.cut)
        } else {
            (&mut [], &mut [])
        }
    }

    /// How many atoms there are.
    pub fn atoms(&self) -> u64 {
        self.atoms
    }

    /// Whether the literal is marked.
    pub fn contains(&self, literal: Literal) -> bool {
        let words = if literal.is_held() {
            &self.held
        } else {
            &self.cut
        };
        let atom = literal.atom();
        words
            .get((atom / 64) as usize)
            .is_some_and(|word| word >> (atom % 64) & 1 == 1)
    }

    /// The literals marked, by ascending codes.
    pub fn literals(&self) -> impl Iterator<Item = Literal> {
        let marked = |&word: &usize| self.held[word] | self.cut[word] != 0;
        (0..self.held.len())
            .filter(marked)
            .flat_map(|word| 128 * word as u32..128 * (word as u32 + 1))
            .map(Literal)
            .filter(|&literal| self.contains(literal))
    }

    /// The words of the atoms held.
    pub fn held(&self) -> &[u64] {
        &self.held
    }

    /// The words of the atoms cut.
    pub fn cut(&self) -> &[u64] {
        &self.cut
    }
}

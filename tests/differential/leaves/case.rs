//! One call of a leaf function on plain numbers, and its end.

use std::fmt;

/// The words of a slot.
pub const SLOT_WORDS: usize = 169;

/// The functions compared.
#[derive(Clone, Copy, Debug, PartialEq, Eq)]
pub enum Function {
    Prepare,
    Includes,
    Subsumes,
    SubsumedBy,
    UnionOutputs,
    Deduction,
    NextOutput,
    Decide,
    NextFrom,
    Contains,
    Insert,
}

impl Function {
    pub const ALL: [Self; 11] = [
        Self::Prepare,
        Self::Includes,
        Self::Subsumes,
        Self::SubsumedBy,
        Self::UnionOutputs,
        Self::Deduction,
        Self::NextOutput,
        Self::Decide,
        Self::NextFrom,
        Self::Contains,
        Self::Insert,
    ];

    pub fn name(self) -> &'static str {
        match self {
            Self::Prepare => "prepare",
            Self::Includes => "includes",
            Self::Subsumes => "subsumes",
            Self::SubsumedBy => "subsumed_by",
            Self::UnionOutputs => "union_outputs",
            Self::Deduction => "deduction",
            Self::NextOutput => "next_publication_output",
            Self::Decide => "decide",
            Self::NextFrom => "next_from",
            Self::Contains => "contains",
            Self::Insert => "insert",
        }
    }

    /// Whether its reads are paid from an account.
    pub fn pays(self) -> bool {
        matches!(
            self,
            Self::Prepare | Self::Includes | Self::Subsumes | Self::SubsumedBy | Self::UnionOutputs
        )
    }

    /// Whether it ticks a meter.
    pub fn ticks(self) -> bool {
        self.pays() || matches!(self, Self::Deduction | Self::NextOutput)
    }

    /// Whether it reads a second row.
    pub fn has_other(self) -> bool {
        self.pays() && self != Self::Prepare
    }

    /// Whether it reads a region.
    pub fn has_region(self) -> bool {
        matches!(self, Self::Deduction | Self::NextOutput | Self::Decide)
    }
}

/// A row's codes, or what is given for one.
#[derive(Clone, Debug, Default, PartialEq, Eq)]
pub struct Row {
    pub conditions: Vec<u64>,
    pub outputs: Vec<u64>,
}

/// What a function is called with. A function reads the fields that it has a use for.
#[derive(Clone, Debug)]
pub struct Case {
    pub function: Function,
    pub atoms: u64,
    pub row: Row,
    /// The proposal; for inclusion its outputs are the wanted ones, and the row's are the candidates.
    pub other: Row,
    /// The words of contains, insert and next_from are `held`.
    pub held: Vec<u64>,
    pub cut: Vec<u64>,
    /// The maximum of a union; which of inclusion's lists lie in a stored row's form (1 the candidates, 2 the wanted);
    /// the atom of decide, contains and insert; where next_from begins.
    pub number: u64,
    /// The sign of decide.
    pub value: bool,
    /// next, word, present, absent.
    pub cursor: [u64; 4],
    pub account: u64,
    /// Whether the account is the sharing one. The Rust makes no difference.
    pub sharing: bool,
    /// What is charged before the call, and the limit. The Rust is given a fresh meter with what is left.
    pub charged: u64,
    pub limit: u64,
}

impl Case {
    pub fn new(function: Function, atoms: u64) -> Self {
        Self {
            function,
            atoms,
            row: Row::default(),
            other: Row::default(),
            held: Vec::new(),
            cut: Vec::new(),
            number: 0,
            value: false,
            cursor: [0; 4],
            account: u64::MAX,
            sharing: false,
            charged: 0,
            limit: u64::MAX,
        }
    }

    /// The ticks that the meter has left.
    pub fn room(&self) -> u64 {
        self.limit.saturating_sub(self.charged)
    }
}

/// What came back.
#[derive(Clone, Copy, Debug, PartialEq, Eq)]
pub enum Answer {
    /// The input is none: 1 a row, 2 a region, 3 a cursor, 4 a maximum or a choice of forms. The library's 5, no slot of 169
    /// words, cannot be given here.
    Unfit(u64),
    Stopped,
    Declined,
    No,
    Yes,
    Nothing,
    Force,
    /// The literal that is required, and the output that is named.
    Require(u64, u64),
    End,
    Output(u64),
    At(u64),
}

/// The whole end of a call: the answer, the account left, the ticks made, and the words that it wrote. A function that does
/// not pay leaves the account as it was.
#[derive(Clone, Debug, PartialEq, Eq)]
pub struct End {
    pub answer: Answer,
    pub account: u64,
    pub charge: u64,
    pub words: Vec<u64>,
}

fn list(numbers: &[u64]) -> String {
    let words: Vec<String> = numbers.iter().map(u64::to_string).collect();
    words.join(",")
}

/// The atoms of a mask.
fn atoms(mask: &[u64]) -> Vec<u64> {
    let bits =
        (0..mask.len() as u64 * 64).filter(|bit| mask[*bit as usize / 64] >> (bit % 64) & 1 == 1);
    bits.collect()
}

impl fmt::Display for Row {
    fn fmt(&self, f: &mut fmt::Formatter<'_>) -> fmt::Result {
        write!(f, "{} -> {}", list(&self.conditions), list(&self.outputs))
    }
}

/// What the function reads, with masks as lists of atoms.
impl fmt::Display for Case {
    fn fmt(&self, f: &mut fmt::Formatter<'_>) -> fmt::Result {
        let function = self.function;
        write!(f, "{}", function.name())?;
        if function.ticks() || function.has_region() {
            write!(f, ", {} atoms", self.atoms)?;
        }
        if function.ticks() {
            write!(f, ", row {}", self.row)?;
        }
        if function.has_other() {
            write!(f, ", other {}", self.other)?;
        }
        if !function.ticks() || function.has_region() {
            let (held, cut) = (atoms(&self.held), atoms(&self.cut));
            write!(f, ", held {{{}}} of {} words", list(&held), self.held.len())?;
            write!(f, ", cut {{{}}} of {}", list(&cut), self.cut.len())?;
        }
        if function == Function::NextOutput {
            write!(f, ", cursor {}", list(&self.cursor))?;
        }
        write!(f, ", number {}, value {}", self.number, self.value)?;
        if function.pays() {
            let kind = if self.sharing { "sharing" } else { "capture" };
            write!(f, ", {kind} account {}", self.account)?;
        }
        if function.ticks() {
            write!(f, ", charged {}, limit {}", self.charged, self.limit)?;
        }
        Ok(())
    }
}

/// The words without the zeros at their end.
impl fmt::Display for End {
    fn fmt(&self, f: &mut fmt::Formatter<'_>) -> fmt::Result {
        let length = self
            .words
            .iter()
            .rposition(|&word| word != 0)
            .map_or(0, |last| last + 1);
        write!(
            f,
            "{:?}, account {}, charge {}",
            self.answer, self.account, self.charge
        )?;
        write!(
            f,
            ", {} words {}",
            self.words.len(),
            list(&self.words[..length])
        )
    }
}

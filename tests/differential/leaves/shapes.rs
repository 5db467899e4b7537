//! What occurred in the calls, counted; and what must occur.

use oracle::literals::{MOST_ATOMS, is_row};

use crate::case::{Answer, Case, End, Function, Row};
use crate::contradicted;
use crate::far::{HALF, SPAN, TOO_MANY, alike, splits};
use crate::generate::{FAR_GROUPS, GROUPS};
use crate::rust;

/// How a call ended. Inside: after its first tick.
fn ending(end: &End) -> &'static str {
    match end.answer {
        Answer::Unfit(_) => "Unfit",
        Answer::Stopped if end.charge > 0 => "Stopped inside",
        Answer::Stopped => "Stopped",
        Answer::Declined if end.charge > 0 => "Declined inside",
        Answer::Declined => "Declined",
        Answer::No => "No",
        Answer::Yes => "Yes",
        Answer::Nothing => "Nothing",
        Answer::Force => "Force",
        Answer::Require(..) => "Require",
        Answer::End => "End",
        Answer::Output(_) => "Output",
        Answer::At(_) => "At",
    }
}

/// The endings that each function must show.
fn endings(function: Function) -> &'static [&'static str] {
    match function {
        Function::Prepare => &[
            "Yes",
            "Declined",
            "Declined inside",
            "Stopped",
            "Stopped inside",
            "Unfit",
        ],
        Function::Includes | Function::Subsumes | Function::SubsumedBy | Function::UnionOutputs => {
            &[
                "Yes",
                "No",
                "Declined",
                "Declined inside",
                "Stopped",
                "Stopped inside",
                "Unfit",
            ]
        }
        Function::Deduction => &[
            "Force",
            "Require",
            "Nothing",
            "Stopped",
            "Stopped inside",
            "Unfit",
        ],
        Function::NextOutput => &["Output", "End", "Stopped", "Stopped inside", "Unfit"],
        Function::Decide => &["Yes", "No", "Unfit"],
        Function::NextFrom => &["At", "Nothing"],
        Function::Contains => &["Yes", "No"],
        Function::Insert => &["Yes"],
    }
}

/// The shapes of input that must occur, in a fit call.
const SHAPES: [&str; 19] = [
    "a scalar row",
    "a packed row",
    "both signs of an atom among outputs",
    "an atom on both sides",
    "16 conditions",
    "64 outputs",
    "no conditions",
    "no outputs",
    "atoms below 64 alone",
    "an atom of 32,000 or more",
    "groups 0, 255, 256 and 511",
    "a group after one 256 below it",
    "a union at the maximum",
    "a union one over the maximum",
    "a union that grows the proposal",
    "a cursor inside a group",
    "a group passed over, all of it true",
    "a meter past its limit",
    "the sharing account",
];

/// The shapes of rows over many atoms that must occur, in a fit call.
const FAR_SHAPES: [&str; 7] = [
    "a scalar row on both sides of 32,768",
    "a packed row on both sides of 32,768",
    "a scalar row on both sides of 65,536",
    "a packed row on both sides of 65,536",
    "groups 511, 512, 1,023, 1,024, 3,125 and 16,383",
    "two codes of a row with the same low 16 bits",
    "a row over 1,048,576 atoms",
];

/// The shapes of unfit calls that must occur.
const UNFIT_SHAPES: [&str; 3] = [
    "1,048,577 atoms, which are unfit",
    "an unfit code whose low 16 bits are fit",
    "an unfit code whose low 32 bits are fit",
];

/// All shapes, in the order of their bits.
const ALL_SHAPES: usize =
    SHAPES.len() + contradicted::SHAPES.len() + FAR_SHAPES.len() + UNFIT_SHAPES.len();

/// The shapes of a row, in the order of `SHAPES`.
fn of_row(row: &Row) -> [bool; 12] {
    let atoms = || {
        row.conditions
            .iter()
            .chain(&row.outputs)
            .map(|code| code / 2)
    };
    let packed = !rust::form(row).groups.is_empty();
    let groups: Vec<u64> = atoms().map(|atom| atom / 64).collect();
    let far = |codes: &[u64]| {
        codes
            .windows(2)
            .any(|pair| pair[0] / 128 + 256 == pair[1] / 128)
    };
    [
        !packed,
        packed,
        row.outputs
            .windows(2)
            .any(|pair| pair[0] / 2 == pair[1] / 2),
        row.conditions
            .iter()
            .any(|left| row.outputs.iter().any(|right| left / 2 == right / 2)),
        row.conditions.len() == 16,
        row.outputs.len() == 64,
        row.conditions.is_empty(),
        row.outputs.is_empty(),
        atoms().next().is_some() && atoms().all(|atom| atom < 64),
        atoms().any(|atom| atom >= 32_000),
        GROUPS.iter().all(|group| groups.contains(group)),
        far(&row.conditions) || far(&row.outputs),
    ]
}

/// The length of the union of two rows' outputs.
fn united(row: &Row, other: &Row) -> u64 {
    let mut outputs = [&row.outputs[..], &other.outputs].concat();
    outputs.sort_unstable();
    outputs.dedup();
    outputs.len() as u64
}

/// The shapes of a row over many atoms.
fn of_far(case: &Case) -> [bool; FAR_SHAPES.len()] {
    let row = &case.row;
    let codes = [&row.conditions[..], &row.outputs].concat();
    let packed = !rust::form(row).groups.is_empty();
    let (half, span) = (splits(&codes, HALF), splits(&codes, SPAN));
    let has = |group: &u64| codes.iter().any(|code| code / 128 == *group);
    [
        half && !packed,
        half && packed,
        span && !packed,
        span && packed,
        FAR_GROUPS.iter().all(has),
        alike(&codes),
        case.atoms == MOST_ATOMS,
    ]
}

/// The shapes of an unfit case.
fn of_unfit(case: &Case) -> [bool; UNFIT_SHAPES.len()] {
    let low = |bits: u64| {
        let cut = |codes: &[u64]| -> Vec<u64> { codes.iter().map(|code| code % bits).collect() };
        let row = |row: &Row| {
            is_row(
                case.atoms,
                rust::MOST,
                &cut(&row.conditions),
                &cut(&row.outputs),
            )
        };
        case.function.ticks() && rust::unfit(case) == Some(1) && row(&case.row) && row(&case.other)
    };
    let known = case.atoms <= MOST_ATOMS;
    [
        case.atoms == TOO_MANY,
        known && low(SPAN),
        known && low(1 << 32),
    ]
}

/// A bit for each that was found.
fn bits(found: impl IntoIterator<Item = bool>) -> u64 {
    let found = found.into_iter().enumerate();
    found.map(|(place, found)| u64::from(found) << place).sum()
}

/// The shapes of a case that has a row, and is fit, or of an unfit one: a bit for each of them.
pub fn of_case(case: &Case) -> u64 {
    if rust::unfit(case).is_some() {
        return bits(of_unfit(case)) << (ALL_SHAPES - UNFIT_SHAPES.len());
    }
    if !case.function.ticks() {
        return 0;
    }
    let row = of_row(&case.row);
    let union =
        case.function == Function::UnionOutputs && case.row.conditions == case.other.conditions;
    let length = united(&case.row, &case.other);
    let fits = case.row.outputs.len().max(case.other.outputs.len()) as u64 <= case.number;
    let next = case.function == Function::NextOutput;
    let more = [
        union && fits && length == case.number,
        union && fits && length == case.number + 1,
        union && fits && length <= case.number && length > case.other.outputs.len() as u64,
        next && (case.cursor[2] | case.cursor[3]) != 0,
        next && passes_over(case),
        case.limit < case.charged,
        case.function.pays() && case.sharing,
    ];
    let found = row.into_iter().chain(more).chain(of_require(case));
    bits(found.chain(of_far(case)))
}

/// The end of a call where nothing runs out.
fn paid(case: &Case) -> End {
    let mut paid = case.clone();
    (paid.charged, paid.limit) = (0, u64::MAX);
    rust::run(&paid)
}

/// The shapes of a deduction that is a Require.
fn of_require(case: &Case) -> [bool; contradicted::SHAPES.len()] {
    let requires =
        case.function == Function::Deduction && matches!(paid(case).answer, Answer::Require(..));
    if !requires {
        return [false; contradicted::SHAPES.len()];
    }
    let outputs = &case.row.outputs;
    let found = contradicted::contradicted(outputs, &case.held, &case.cut);
    let packed = !rust::form(&case.row).groups.is_empty();
    contradicted::shapes(outputs, packed, &found)
}

/// Whether the next output lies beyond a group whose outputs are all true.
fn passes_over(case: &Case) -> bool {
    let after = paid(case).words[0];
    after > case.cursor[0] + 1 && !rust::form(&case.row).groups.is_empty()
}

/// The counts: calls by function, by function and ending, and by shape.
pub struct Counts {
    calls: [u64; Function::ALL.len()],
    endings: [[u64; 7]; Function::ALL.len()],
    shapes: [u64; ALL_SHAPES],
}

impl Default for Counts {
    fn default() -> Self {
        Self {
            calls: Default::default(),
            endings: Default::default(),
            shapes: [0; ALL_SHAPES],
        }
    }
}

impl Counts {
    pub fn add(&mut self, case: &Case, shapes: u64, end: &End) {
        let function = case.function as usize;
        self.calls[function] += 1;
        let place = endings(case.function)
            .iter()
            .position(|&name| name == ending(end));
        if let Some(place) = place {
            self.endings[function][place] += 1;
        }
        for (place, count) in self.shapes.iter_mut().enumerate() {
            *count += u64::from(shapes >> place & 1);
        }
    }

    pub fn calls(&self) -> u64 {
        self.calls.iter().sum()
    }

    /// Writes the counts, and gives the number of things that must occur and did not.
    pub fn report(&self) -> usize {
        let mut missing = 0;
        for function in Function::ALL {
            let counts = &self.endings[function as usize];
            let parts: Vec<String> = endings(function)
                .iter()
                .zip(counts)
                .map(|(name, count)| format!("{name} {count}"))
                .collect();
            println!(
                "{:24}{:9}: {}",
                function.name(),
                self.calls[function as usize],
                parts.join(", ")
            );
            missing += endings(function)
                .iter()
                .zip(counts)
                .filter(|&(_, &count)| count == 0)
                .count();
        }
        println!("calls with");
        let names = SHAPES.iter().chain(&contradicted::SHAPES);
        let names = names.chain(&FAR_SHAPES).chain(&UNFIT_SHAPES);
        for (name, count) in names.zip(&self.shapes) {
            println!("  {name:58}{count:9}");
            missing += usize::from(*count == 0);
        }
        missing
    }
}

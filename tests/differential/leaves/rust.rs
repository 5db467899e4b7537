//! A call as the Rust ends it, through the oracle. Only the tests for unfit input are restated here.

use oracle::leaves::{self, Codes, Paid, Verdict};
use oracle::literals::{MOST_ATOMS, is_region, is_row};
use oracle::{Cursor, Masks};

use crate::case::{Answer, Case, End, Function, Row, SLOT_WORDS};
use crate::contradicted::contradicted;

/// The most conditions, and the most outputs, of a row.
pub const MOST: (u64, u64) = (16, 64);

pub fn codes(row: &Row) -> Codes<'_> {
    (&row.conditions, &row.outputs)
}

/// The Rust's form of a row, at no price.
pub fn form(row: &Row) -> leaves::Form {
    match leaves::prepare(codes(row), u64::MAX, u64::MAX).verdict {
        Verdict::Given(form) => form,
        other => panic!("nothing runs out, and yet {other:?}"),
    }
}

/// What the input is not, if it is unfit.
pub fn unfit(case: &Case) -> Option<u64> {
    let row = |row: &Row| {
        case.atoms <= MOST_ATOMS && is_row(case.atoms, MOST, &row.conditions, &row.outputs)
    };
    let function = case.function;
    let has_row = function.ticks();
    if has_row && !(row(&case.row) && (!function.has_other() || row(&case.other))) {
        return Some(1);
    }
    let in_range = (1..=MOST_ATOMS).contains(&case.atoms);
    if function.has_region() && !(in_range && is_region(case.atoms, &case.held, &case.cut)) {
        return Some(2);
    }
    match function {
        Function::NextOutput if !cursor_fits(&case.row, case.cursor) => Some(3),
        Function::UnionOutputs if case.number > MOST.1 => Some(4),
        Function::Includes if case.number > 3 => Some(4),
        _ => None,
    }
}

/// Document 01, refusal 8.
fn cursor_fits(row: &Row, [next, word, present, absent]: [u64; 4]) -> bool {
    let form = form(row);
    let groups = &form.groups[form.condition_groups as usize..];
    let empty = (word, present, absent) == (0, 0, 0);
    if form.groups.is_empty() {
        return next <= row.outputs.len() as u64 && empty;
    }
    if next == 0 || next > groups.len() as u64 {
        return next == 0 && empty;
    }
    let group = groups[next as usize - 1];
    word == group.0 && present & !group.1 == 0 && absent & !group.2 == 0
}

/// A slot: the counts, the body, and 0 for the source: a leaf's row is Founded.
fn slot(counts: [u64; 4], body: impl IntoIterator<Item = u64>) -> Vec<u64> {
    let mut words = counts.to_vec();
    words.extend([0; 4]);
    words.extend(body);
    words.resize(SLOT_WORDS, 0);
    words
}

/// The slot of a row in a form.
fn stored(row: &Row, form: &leaves::Form) -> Vec<u64> {
    let counts = [
        row.conditions.len() as u64,
        row.outputs.len() as u64,
        form.groups.len() as u64,
        form.condition_groups,
    ];
    if form.groups.is_empty() {
        slot(counts, row.conditions.iter().chain(&row.outputs).copied())
    } else {
        let group = |&(index, present, absent): &(u64, u64, u64)| [index, present, absent];
        slot(counts, form.groups.iter().flat_map(group))
    }
}

/// The slot of a proposal.
fn proposal(conditions: &[u64], outputs: &[u64]) -> Vec<u64> {
    let counts = [conditions.len() as u64, outputs.len() as u64, 0, 0];
    slot(counts, conditions.iter().chain(outputs).copied())
}

fn judged(paid: Paid<bool>, words: Vec<u64>) -> End {
    let answer = match paid.verdict {
        Verdict::Given(true) => Answer::Yes,
        Verdict::Given(false) => Answer::No,
        Verdict::Declined => Answer::Declined,
        Verdict::Stopped => Answer::Stopped,
    };
    End {
        answer,
        account: paid.account,
        charge: paid.charge,
        words,
    }
}

fn prepared(case: &Case) -> End {
    let paid = leaves::prepare(codes(&case.row), case.account, case.room());
    let (verdict, words) = match paid.verdict {
        Verdict::Given(form) => (Verdict::Given(true), stored(&case.row, &form)),
        Verdict::Declined => (Verdict::Declined, Vec::new()),
        Verdict::Stopped => (Verdict::Stopped, Vec::new()),
    };
    let paid = Paid {
        verdict,
        account: paid.account,
        charge: paid.charge,
    };
    judged(paid, words)
}

/// The oracle's answer, where it is one of a function's own.
fn plain(answer: oracle::Answer) -> Answer {
    match answer {
        oracle::Answer::Stopped => Answer::Stopped,
        oracle::Answer::Nothing => Answer::Nothing,
        oracle::Answer::Force => Answer::Force,
        oracle::Answer::Output(code) => Answer::Output(code),
        oracle::Answer::End => Answer::End,
        oracle::Answer::True => Answer::Yes,
        oracle::Answer::False => Answer::No,
        other => panic!("no leaf answers {other:?}"),
    }
}

/// The Rust's deduction. It does not say which output a Require names: that is read here, and not by the oracle's driver.
fn deduced(case: &Case, answer: oracle::Answer) -> Answer {
    match answer {
        oracle::Answer::Require { required, .. } => {
            let outputs = contradicted(&case.row.outputs, &case.held, &case.cut);
            Answer::Require(required, outputs[0])
        }
        other => plain(other),
    }
}

/// How the Rust ends the call.
pub fn run(case: &Case) -> End {
    let ended = |answer: Answer, charge: u64, words: Vec<u64>| End {
        answer,
        account: case.account,
        charge,
        words,
    };
    if let Some(number) = unfit(case) {
        return ended(Answer::Unfit(number), 0, Vec::new());
    }
    let (row, other) = (codes(&case.row), codes(&case.other));
    let (account, limit) = (case.account, case.room());
    match case.function {
        Function::Prepare => prepared(case),
        Function::Includes => judged(leaves::includes(row.1, other.1, account, limit), Vec::new()),
        Function::Subsumes => judged(leaves::subsumes(row, other, account, limit), Vec::new()),
        Function::SubsumedBy => judged(leaves::subsumed_by(row, other, account, limit), Vec::new()),
        Function::UnionOutputs => {
            let (paid, outputs) = leaves::union_outputs(row, other, case.number, account, limit);
            judged(paid, proposal(&case.other.conditions, &outputs))
        }
        Function::Deduction => {
            let done = leaves::deduction(row, &case.held, &case.cut, limit);
            ended(deduced(case, done.answer), done.charge, Vec::new())
        }
        Function::NextOutput => {
            let [next, word, present, absent] = case.cursor;
            let cursor = Cursor {
                next: next as usize,
                word: word as usize,
                present,
                absent,
            };
            let done = leaves::next_publication_output(row, cursor, &case.held, &case.cut, limit);
            let moved = done.cursor;
            let words = vec![
                moved.next as u64,
                moved.word as u64,
                moved.present,
                moved.absent,
            ];
            ended(plain(done.answer), done.charge, words)
        }
        Function::Decide => {
            let region = Masks {
                held: case.held.clone(),
                cut: case.cut.clone(),
            };
            let done = leaves::decide(case.atoms, case.number, case.value, region);
            ended(
                plain(done.answer),
                0,
                [done.region.held, done.region.cut].concat(),
            )
        }
        Function::NextFrom => {
            let found = leaves::next_from(&case.held, case.number);
            ended(found.map_or(Answer::Nothing, Answer::At), 0, Vec::new())
        }
        Function::Contains => {
            let inside = case.number / 64 < case.held.len() as u64;
            let yes = inside && leaves::contains(&case.held, case.number);
            ended(if yes { Answer::Yes } else { Answer::No }, 0, Vec::new())
        }
        Function::Insert => {
            let mut words = case.held.clone();
            if case.number / 64 < words.len() as u64 {
                leaves::insert(&mut words, case.number);
            }
            ended(Answer::Yes, 0, words)
        }
    }
}

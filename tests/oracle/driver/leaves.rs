//! The single functions of rows, regions and words, for comparison leaf by leaf.
//!
//! Rows are given by their codes, which must be in order, and regions by words that reach every atom named; nothing is
//! refused here. Functions that pay take an account and a limit of the meter.

use zetesis_algebra::words::Words;
use zetesis_ferraris::regions::{Cursor, Leaves, Metered, Work, metered};

use crate::answer::Answer;
use crate::ledger::{Done, Published, contradicted, deduced};
use crate::literals::{code, codes, groups, literals};

/// `Region::decide`, with number 6 in front.
pub use crate::ledger::decide;

/// A row's conditions and outputs, as codes.
pub type Codes<'a> = (&'a [u64], &'a [u64]);

/// What a paying function gave.
#[derive(Clone, Debug, PartialEq, Eq)]
pub enum Verdict<T> {
    /// Its result.
    Given(T),
    /// The account ran out.
    Declined,
    /// The meter stopped it.
    Stopped,
}

/// A paying function's verdict, the account left and the ticks made.
#[derive(Clone, Debug, PartialEq, Eq)]
#[allow(missing_docs)]
pub struct Paid<T> {
    pub verdict: Verdict<T>,
    pub account: u64,
    pub charge: u64,
}

/// The form of a row: its groups (index, present bits, absent bits), conditions first. A scalar row has none.
#[derive(Clone, Debug, PartialEq, Eq)]
#[allow(missing_docs)]
pub struct Form {
    pub groups: Vec<(u64, u64, u64)>,
    pub condition_groups: u64,
}

fn pay<T>(
    mut account: u64,
    limit: u64,
    run: impl FnOnce(&mut u64, &mut Work<'_>) -> Metered<Option<T>>,
) -> Paid<T> {
    let (result, charge) = metered(limit, |work| run(&mut account, work));
    let verdict = match result {
        None => Verdict::Stopped,
        Some(None) => Verdict::Declined,
        Some(Some(value)) => Verdict::Given(value),
    };
    Paid {
        verdict,
        account,
        charge,
    }
}

/// `Row::prepare`: the form of a row.
pub fn prepare(row: Codes<'_>, account: u64, limit: u64) -> Paid<Form> {
    let (conditions, outputs) = (literals(row.0), literals(row.1));
    pay(account, limit, |account, work| {
        let shape = Leaves::prepare(&conditions, &outputs, account, work)?;
        Ok(shape.map(|shape| Form {
            groups: groups(&shape.groups),
            condition_groups: shape.condition_groups as u64,
        }))
    })
}

/// `includes`: whether the required codes are among the candidates.
pub fn includes(candidates: &[u64], required: &[u64], account: u64, limit: u64) -> Paid<bool> {
    let (candidates, required) = (literals(candidates), literals(required));
    pay(account, limit, |account, work| {
        Leaves::includes(&candidates, &required, account, work)
    })
}

/// `Row::subsumes`: whether the row makes the other one redundant.
pub fn subsumes(row: Codes<'_>, other: Codes<'_>, account: u64, limit: u64) -> Paid<bool> {
    let row = (literals(row.0), literals(row.1));
    let other = (literals(other.0), literals(other.1));
    pay(account, limit, |account, work| {
        Leaves::subsumes((&row.0, &row.1), (&other.0, &other.1), account, work)
    })
}

/// `Row::subsumed_by`: whether the other one makes the row redundant.
pub fn subsumed_by(row: Codes<'_>, other: Codes<'_>, account: u64, limit: u64) -> Paid<bool> {
    let row = (literals(row.0), literals(row.1));
    let other = (literals(other.0), literals(other.1));
    pay(account, limit, |account, work| {
        Leaves::subsumed_by((&row.0, &row.1), (&other.0, &other.1), account, work)
    })
}

/// `Row::union_outputs`: the verdict, and the other one's outputs after it.
pub fn union_outputs(
    row: Codes<'_>,
    other: Codes<'_>,
    maximum: u64,
    account: u64,
    limit: u64,
) -> (Paid<bool>, Vec<u64>) {
    let row = (literals(row.0), literals(row.1));
    let (conditions, mut outputs) = (literals(other.0), literals(other.1));
    let paid = pay(account, limit, |account, work| {
        Leaves::union_outputs(
            (&row.0, &row.1),
            (&conditions, &mut outputs),
            maximum as usize,
            account,
            work,
        )
    });
    (paid, codes(&outputs))
}

/// `Row::deduction` on a region.
pub fn deduction(row: Codes<'_>, held: &[u64], cut: &[u64], limit: u64) -> Done {
    let row = (literals(row.0), literals(row.1));
    let (result, charge) = metered(limit, |work| {
        Leaves::deduction((&row.0, &row.1), held, cut, work)
    });
    Done {
        answer: deduced(result, || contradicted(&row.1, (held, cut))),
        charge,
    }
}

/// `Row::next_publication_output` from a cursor that is one of this row's.
pub fn next_publication_output(
    row: Codes<'_>,
    cursor: Cursor,
    held: &[u64],
    cut: &[u64],
    limit: u64,
) -> Published {
    let row = (literals(row.0), literals(row.1));
    let mut cursor = cursor;
    let (result, charge) = metered(limit, |work| {
        Leaves::next_publication_output((&row.0, &row.1), &mut cursor, held, cut, work)
    });
    let answer = match result {
        None => Answer::Stopped,
        Some(None) => Answer::End,
        Some(Some(output)) => Answer::Output(code(output)),
    };
    Published {
        answer,
        charge,
        cursor,
    }
}

/// `Words::next_from`: the first set position at or after one.
pub fn next_from(words: &[u64], from: u64) -> Option<u64> {
    let position = Words::<u64, &[u64]>::new(words).next_from(from as usize)?;
    Some(position as u64)
}

/// `Words::contains`, for a position within the words.
pub fn contains(words: &[u64], position: u64) -> bool {
    Words::<u64, &[u64]>::new(words).contains(position as usize)
}

/// `Words::insert`, for a position within the words.
pub fn insert(words: &mut [u64], position: u64) {
    Words::<u64, &mut [u64]>::new(words).insert(position as usize);
}

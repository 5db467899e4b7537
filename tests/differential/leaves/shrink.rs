//! The smallest case that still differs, found by leaving things out as long as that is possible.

use crate::case::{Case, Row};

fn without(list: &[u64], place: usize) -> Vec<u64> {
    let mut shorter = list.to_vec();
    shorter.remove(place);
    shorter
}

/// Rows with a literal less.
fn smaller_rows(row: &Row) -> Vec<Row> {
    let conditions = (0..row.conditions.len()).map(|place| Row {
        conditions: without(&row.conditions, place),
        outputs: row.outputs.clone(),
    });
    let outputs = (0..row.outputs.len()).map(|place| Row {
        conditions: row.conditions.clone(),
        outputs: without(&row.outputs, place),
    });
    conditions.chain(outputs).collect()
}

/// Both rows without a literal that both have.
fn smaller_pairs(row: &Row, other: &Row) -> Vec<(Row, Row)> {
    let less = |list: &[u64], code: u64| -> Vec<u64> {
        list.iter().copied().filter(|&kept| kept != code).collect()
    };
    let both = |left: &[u64], right: &[u64]| -> Vec<u64> {
        left.iter()
            .copied()
            .filter(|code| right.contains(code))
            .collect()
    };
    let conditions = both(&row.conditions, &other.conditions)
        .into_iter()
        .map(|code| {
            let with = |row: &Row| Row {
                conditions: less(&row.conditions, code),
                outputs: row.outputs.clone(),
            };
            (with(row), with(other))
        });
    let outputs = both(&row.outputs, &other.outputs).into_iter().map(|code| {
        let with = |row: &Row| Row {
            conditions: row.conditions.clone(),
            outputs: less(&row.outputs, code),
        };
        (with(row), with(other))
    });
    conditions.chain(outputs).collect()
}

/// Masks with an atom less.
fn smaller_masks(words: &[u64]) -> Vec<Vec<u64>> {
    let bits = (0..words.len() * 64).filter(|&bit| words[bit / 64] >> (bit % 64) & 1 == 1);
    bits.map(|bit| {
        let mut fewer = words.to_vec();
        fewer[bit / 64] &= !(1 << (bit % 64));
        fewer
    })
    .collect()
}

/// Numbers that are smaller.
fn smaller_numbers(number: u64) -> Vec<u64> {
    let steps = [0, number / 2, number.saturating_sub(1)];
    steps.into_iter().filter(|&step| step < number).collect()
}

/// Cases that are smaller in one thing.
fn smaller(case: &Case) -> Vec<Case> {
    let with = |change: &dyn Fn(&mut Case)| {
        let mut changed = case.clone();
        change(&mut changed);
        changed
    };
    let mut cases = Vec::new();
    cases.extend(
        smaller_rows(&case.row)
            .into_iter()
            .map(|row| with(&|c| c.row = row.clone())),
    );
    cases.extend(
        smaller_rows(&case.other)
            .into_iter()
            .map(|row| with(&|c| c.other = row.clone())),
    );
    cases.extend(
        smaller_masks(&case.held)
            .into_iter()
            .map(|mask| with(&|c| c.held = mask.clone())),
    );
    cases.extend(
        smaller_masks(&case.cut)
            .into_iter()
            .map(|mask| with(&|c| c.cut = mask.clone())),
    );
    for pair in smaller_pairs(&case.row, &case.other) {
        cases.push(with(&|c| (c.row, c.other) = pair.clone()));
    }
    if case.charged != 0 {
        cases.push(with(&|c| (c.charged, c.limit) = (0, c.room())));
    }
    if case.sharing {
        cases.push(with(&|c| c.sharing = false));
    }
    for number in smaller_numbers(case.account) {
        cases.push(with(&|c| c.account = number));
    }
    for number in smaller_numbers(case.room()) {
        cases.push(with(&|c| c.limit = c.charged.saturating_add(number)));
    }
    for number in smaller_numbers(case.number) {
        cases.push(with(&|c| c.number = number));
    }
    cases
}

/// Leaves things out of a case that differs as long as it still does.
pub fn shrink(mut case: Case, differs: impl Fn(&Case) -> bool) -> Case {
    while let Some(less) = smaller(&case).into_iter().find(|less| differs(less)) {
        case = less;
    }
    case
}

//! The order of learning: ledgers that force alike close alike, and ledgers that took rows which cover each other force alike.

use crate::compare::{Run, Spoil, Subject};
use crate::generate::{learn, many_rows, rows, split};
use crate::ledger::Limits;
use crate::rounds::SCAN_ROWS;
use crate::rows::{Literals, Row, covers, force_alike};

/// All orders of a short list; else a few random ones.
fn orders(run: &mut Run, rows: &[Row]) -> Vec<Vec<Row>> {
    if rows.len() <= 3 {
        return permutations(rows);
    }
    let mut found = vec![rows.to_vec()];
    for _ in 0..3 {
        let mut order = rows.to_vec();
        run.random.shuffle(&mut order);
        found.push(order);
    }
    found
}

fn permutations(rows: &[Row]) -> Vec<Vec<Row>> {
    if rows.is_empty() {
        return vec![Vec::new()];
    }
    let with_first = |first: usize| {
        let mut others = rows.to_vec();
        let row = others.remove(first);
        permutations(&others)
            .into_iter()
            .map(move |order| [vec![row], order].concat())
            .collect::<Vec<_>>()
    };
    (0..rows.len()).flat_map(with_first).collect()
}

/// Two ledgers over the same atoms: whether they force alike must be what the rows taken say, if neither evicted; and if they do, every closing ends
/// alike.
fn pair(run: &mut Run, one: &mut Subject, other: &mut Subject) {
    let alike = force_alike(&one.rows, &other.rows, &one.regions);
    let evicted = one.ledger.has_evicted() || other.ledger.has_evicted();
    let (taken, others) = (&one.ledger.taken, &other.ledger.taken);
    let covered = covers(taken, others) && covers(others, taken);
    let fault = "forcing alike is not what the rows taken say";
    run.expect(
        (!evicted && alike != covered).then_some(fault),
        &one.rows,
        Literals::NONE,
    );
    count(run, one, other, alike, evicted);
    if !alike && run.spoil != Spoil::Alike {
        return;
    }
    for region in one.regions.clone() {
        let ends = (run.close(one, region), run.close(other, region));
        let fault = "two that force alike end otherwise";
        run.expect((ends.0 != ends.1).then_some(fault), &one.rows, region);
    }
}

fn count(run: &mut Run, one: &Subject, other: &Subject, alike: bool, evicted: bool) {
    let by_postings = |subject: &Subject| subject.rows.len() > SCAN_ROWS;
    let mixed = alike && by_postings(one) != by_postings(other);
    run.occurs("two that force alike, none evicted", alike && !evicted);
    run.occurs("two that force alike, one evicted", alike && evicted);
    run.occurs(
        "two that do not force alike, none evicted",
        !alike && !evicted,
    );
    run.occurs(
        "two that do not force alike, one evicted",
        !alike && evicted,
    );
    run.occurs(
        "two that force alike by other rows",
        alike && one.rows != other.rows,
    );
    run.occurs("two that force alike, by postings and by full scan", mixed);
}

/// The same rows in several orders, into ledgers of one size.
pub fn same_rows(run: &mut Run, atoms: u64) {
    let count = run.random.pick(&[2, 3, 3, 5, 8]);
    let list = rows(&mut run.random, atoms, count);
    let tier_rows = run.random.pick(&[1, 2, 3, 16, 16, 16, 16]);
    let work = run.random.pick(&[60, 300, u64::MAX, u64::MAX, u64::MAX]);
    let outputs = if run.random.chance(1, 4) { 6 } else { 64 };
    let limits = Limits {
        atoms,
        tier_rows,
        outputs,
        work,
    };
    let mut subjects = Vec::new();
    for order in orders(run, &list) {
        let disturbed = run.random.chance(1, 2);
        let ledger = learn(&mut run.random, limits, &order, disturbed);
        subjects.push(run.subject(ledger));
    }
    let (first, others) = subjects.split_first_mut().expect("at least one order");
    for other in others {
        pair(run, first, other);
    }
}

/// Rows that were joined beside the same rows split into single outputs, which cannot join.
pub fn joined_and_split(run: &mut Run) {
    let mut list = many_rows(&mut run.random);
    let limits = Limits {
        atoms: 4,
        tier_rows: 256,
        outputs: 64,
        work: u64::MAX,
    };
    let joined = learn(&mut run.random, limits, &list, false);
    list = split(&list);
    run.random.shuffle(&mut list);
    let apart = learn(
        &mut run.random,
        Limits {
            outputs: 1,
            ..limits
        },
        &list,
        true,
    );
    let (mut one, mut other) = (run.subject(joined), run.subject(apart));
    pair(run, &mut one, &mut other);
}

/// The same rows offered, seeded from a store that learned them, and half of them delivered to a store that learned the others.
pub fn transferred(run: &mut Run, atoms: u64) {
    let count = run.random.pick(&[3, 5, 8]);
    let list = rows(&mut run.random, atoms, count);
    let tier_rows = run.random.pick(&[2, 4, 16, 16, 16]);
    let limits = Limits {
        atoms,
        tier_rows,
        outputs: 64,
        work: u64::MAX,
    };
    let mut orders = orders(run, &list);
    run.random.shuffle(&mut orders);
    let offered = learn(&mut run.random, limits, &orders[0], true);
    let mut store = learn(&mut run.random, limits, &orders[1], true);
    let mut seeded = learn(&mut run.random, limits, &[], false);
    seeded.seed(&mut store);
    let (first, second) = orders[2].split_at(orders[2].len() / 2);
    let mut delivered = learn(&mut run.random, limits, first, true);
    learn(&mut run.random, limits, second, true).deliver(&mut delivered);
    let mut one = run.subject(offered);
    for other in [seeded, delivered] {
        let mut other = run.subject(other);
        run.occurs("a ledger that took rows in a transfer", true);
        pair(run, &mut one, &mut other);
    }
}

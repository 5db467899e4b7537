//! Closings through the compiled operation, held against brute force.
//!
//!     closings CLOSINGS SEED [drop|hits|alike|stopped|named]
//!
//! Random ledgers over 1 to 4 atoms, and all 3^atoms regions of each. The last line is 'N closings, M differ'; the exit code is 0 only if M is 0
//! and all that must occur did. The last word makes the comparison wrong, to show that it finds what differs.

#[allow(dead_code)]
#[path = "../book.rs"]
mod book;
#[allow(dead_code)]
#[path = "../../bindings/rust/src/boundary.rs"]
mod boundary;
mod compare;
mod generate;
mod ledger;
mod orders;
#[path = "../random.rs"]
mod random;
mod rounds;
mod rows;

use compare::{Run, Spoil};
use ledger::Limits;
use std::process::ExitCode;

/// A ledger that learned in one order, small enough to evict or not: every region, in random order.
fn one_ledger(run: &mut Run, atoms: u64) {
    let count = run.random.below(9);
    let list = generate::rows(&mut run.random, atoms, count);
    let tier_rows = run.random.pick(&[1, 2, 4, 16, 16, 16]);
    let limits = Limits {
        atoms,
        tier_rows,
        outputs: 64,
        work: u64::MAX,
    };
    let ledger = generate::learn(&mut run.random, limits, &list, true);
    let mut subject = run.subject(ledger);
    let mut regions = subject.regions.clone();
    run.random.shuffle(&mut regions);
    for region in regions {
        run.close(&mut subject, region);
    }
}

fn spoil_named(name: Option<&str>) -> Option<Spoil> {
    Some(match name {
        None => Spoil::Nothing,
        Some("drop") => Spoil::Drop,
        Some("hits") => Spoil::Hits,
        Some("alike") => Spoil::Alike,
        Some("stopped") => Spoil::Stopped,
        Some("named") => Spoil::Named,
        Some(_) => return None,
    })
}

/// One turn: a ledger by itself, the same rows in several orders and by transfers, and from time to time a ledger that is searched by its postings.
fn turn(run: &mut Run) {
    let atoms = run.random.pick(&[1, 2, 3, 3, 4, 4, 4]);
    one_ledger(run, atoms);
    orders::same_rows(run, atoms);
    orders::transferred(run, atoms);
    if run.random.chance(1, 10) {
        orders::joined_and_split(run);
    }
}

fn main() -> ExitCode {
    let words: Vec<String> = std::env::args().skip(1).collect();
    let number = |place: usize| words.get(place).and_then(|word| word.parse().ok());
    let (Some(wanted), Some(seed), Some(spoil)) = (
        number(0),
        number(1),
        spoil_named(words.get(2).map(String::as_str)),
    ) else {
        println!("closings CLOSINGS SEED [drop|hits|alike|stopped|named]");
        return ExitCode::from(2);
    };
    let mut run = Run::start(seed, spoil);
    while run.closings < wanted {
        turn(&mut run);
    }
    for (what, times) in &run.occurred {
        println!("{times:9}  {what}");
    }
    let missing = run.occurred.iter().any(|(_, times)| *times == 0);
    println!("{} closings, {} differ", run.closings, run.differ);
    if run.differ == 0 && !missing {
        ExitCode::SUCCESS
    } else {
        ExitCode::FAILURE
    }
}

//! Compares the operations of the C boundary with the Rust's, call by call, in random scripts.
//!
//!     ledger [ROUNDS [SEED]]
//!     ledger --damage [SEED]
//!
//! It ends with 'N calls compared, M differ', and with exit code 0 only if M is 0 and all that must occur did. With --damage the
//! verified side is given a fault after another, each of which must be found and shown in a short script.

#[path = "../../book.rs"]
mod book;
#[allow(dead_code)]
#[path = "../../../bindings/rust/src/boundary.rs"]
mod boundary;
mod call;
mod compare;
#[path = "../contradicted.rs"]
mod contradicted;
mod counts;
mod distant;
mod end;
#[path = "../far.rs"]
mod far;
mod fault;
mod generate;
mod host;
#[path = "../../layout.rs"]
mod layout;
mod parts;
#[path = "../../random.rs"]
mod random;
mod required;
#[path = "../requires.rs"]
mod requires;
mod run;
mod rust;
mod shapes;
mod shrink;
mod sources;
mod sweep;
mod tips;
mod told;
mod unfit;
#[path = "../verdict.rs"]
mod verdict;

use std::process::ExitCode;
use std::sync::atomic::{AtomicU64, Ordering};
use std::thread;

use fault::Fault;
use random::Random;
use run::{Comparison, Smallest};
use verdict::verdict;

/// Rounds, where none are given.
const ROUNDS: u64 = 200_000;
/// So many rounds are looked at for a fault at most.
const DAMAGED: u64 = 4_000;
/// The calls of the smallest script of a fault; one that needs postings has 65 rows to offer.
const SHORT: usize = 8;
const LONG: usize = 80;

/// The numbers of a round: the same for the same seed, whatever was before it.
fn numbers(seed: u64, round: u64) -> Random {
    let first = Random(seed).word();
    Random(Random(first ^ round).word())
}

/// Takes rounds from `next` on, as long as there are any.
fn work(next: &AtomicU64, rounds: u64, seed: u64) -> Comparison {
    let mut comparison = Comparison::new(None);
    loop {
        let round = next.fetch_add(1, Ordering::Relaxed);
        if round >= rounds {
            return comparison;
        }
        comparison.round(numbers(seed, round));
    }
}

/// The rounds, on every core.
fn compare(rounds: u64, seed: u64) -> Comparison {
    let next = AtomicU64::new(0);
    let cores = thread::available_parallelism().map_or(1, usize::from);
    thread::scope(|scope| {
        let worker = |_| scope.spawn(|| work(&next, rounds, seed));
        let workers: Vec<_> = (0..cores).map(worker).collect();
        let mut all = Comparison::new(None);
        for worker in workers {
            all.join(worker.join().expect("a worker that ends"));
        }
        all
    })
}

fn show(smallest: &Smallest) {
    println!("differs: {}", smallest.text);
    for call in &smallest.script {
        println!("{call}");
    }
}

/// Whether a fault is found, shown in a short script, and is what makes that script differ.
fn detects(fault: Fault, seed: u64) -> bool {
    let mut comparison = Comparison::new(Some(fault));
    let mut rounds = 0..DAMAGED;
    while let (true, Some(round)) = (comparison.found.is_empty(), rounds.next()) {
        comparison.round(numbers(seed, round));
    }
    let Some(smallest) = comparison.found.first() else {
        println!("{fault:?}: not found in {DAMAGED} rounds");
        return false;
    };
    println!(
        "{fault:?}: {} calls compared, a script of {}",
        comparison.counts.calls(),
        smallest.script.len()
    );
    show(smallest);
    let most = if fault == Fault::Posting { LONG } else { SHORT };
    smallest.script.len() <= most
        && shrink::difference(&smallest.script, Some(fault)).is_some()
        && shrink::difference(&smallest.script, None).is_none()
}

fn damage(seed: u64) -> ExitCode {
    let faults = Fault::ALL.len();
    let found = Fault::ALL
        .into_iter()
        .filter(|&fault| detects(fault, seed))
        .count();
    println!("{faults} faults, {found} found");
    if found == faults {
        ExitCode::SUCCESS
    } else {
        ExitCode::FAILURE
    }
}

fn main() -> ExitCode {
    let mut words: Vec<String> = std::env::args().skip(1).collect();
    let damages = words.first().is_some_and(|word| word == "--damage");
    if damages {
        words.remove(0);
    }
    let mut numbers = words.iter().map(|word| word.parse().expect("a number"));
    if damages {
        return damage(numbers.next().unwrap_or(1));
    }
    let rounds = numbers.next().unwrap_or(ROUNDS);
    let comparison = compare(rounds, numbers.next().unwrap_or(1));
    comparison.found.iter().for_each(show);
    let missing = comparison.counts.report();
    verdict(comparison.counts.calls(), comparison.differ, missing)
}

//! Writes what crates/replay replays: calls on raw words, and their ends as the oracle gives them.
//!
//!     replay stdin|stdout|counts
//!
//! Nothing here is taken from the verified code. Ledgers and answers are the oracle's, laid out as words by tests/layout.rs. What the
//! oracle cannot tell is said where it is worked out: ledgers of few rows that are not stale (`given`).

mod distant;
mod given;
mod lines;
#[path = "../recorded.rs"]
#[allow(dead_code)]
mod recorded;
mod saturation;
mod scripts;
mod searches;
mod sweeps;
mod tips;

use lines::Lines;
use recorded::{call, end, far, generate, layout, parts, random, rust};

fn main() {
    let mut lines = Lines::default();
    sweeps::write(&mut lines);
    searches::write(&mut lines);
    saturation::write(&mut lines);
    distant::write(&mut lines);
    scripts::write(&mut lines);
    tips::write(&mut lines);
    scripts::write_tips(&mut lines);
    match std::env::args().nth(1).as_deref() {
        Some("stdin") => print!("{}", lines.calls),
        Some("stdout") => print!("{}", lines.ends),
        _ => {
            for (answer, count) in &lines.counts {
                println!("    {answer:<24}{count:6}");
            }
        }
    }
}

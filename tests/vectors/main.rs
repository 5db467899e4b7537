//! Writes the script of recorded vectors: document 01's bench cards and those of 02's Eight, lines that are no calls, closings stopped at
//! every limit, and random calls. What is written goes by the oracle's ledgers, so that every answer comes up.
//!
//!     vectors [PARTS [SEED]]

mod closings;
#[path = "../recorded.rs"]
#[allow(dead_code)]
mod recorded;
mod stops;
mod tips;
mod tunnel;

use std::fmt::Display;

use call::{Call, Meter, PLACES};
use generate::{Author, Kind, Ledgers};
use random::Random;
use recorded::{call, end, far, generate, layout, parts, random, rust};

/// The bench cards, as tests/oracle/check runs them.
const CARDS: &str = include_str!("../oracle/cards.script");
/// The cards of rows of both sources, as tests/oracle/check runs them.
const TIPS: &str = include_str!("../oracle/tips.script");
/// Lines that are no calls, with a few that are.
const LINES: &str = include_str!("lines.script");

/// A random call that ticks at most so often is tried at every limit, where trying does not change the ledger.
const SWEPT: u64 = 40;

/// The script so far is on standard output; the ledgers are as it leaves them.
#[derive(Default)]
pub struct Writer {
    pub ledgers: Ledgers,
}

impl Writer {
    /// A line that is no call of a ledger.
    pub fn line(&self, text: impl Display) {
        println!("{text}");
    }

    pub fn call(&mut self, call: &Call) {
        println!("{call}");
        rust::run(call, &mut self.ledgers).expect("a call of ledgers that are made, or a Make");
    }

    /// The end of a part: what the ledgers hold, and all of them gone.
    pub fn reset(&mut self) {
        for place in (0..PLACES).filter(|&place| self.ledgers[place].is_some()) {
            println!("dump {place}");
        }
        println!("reset");
        self.ledgers = Ledgers::default();
    }
}

/// A call at every limit up to its charge, where the ledger stays as it is.
fn sweep(writer: &mut Writer, call: &Call) {
    if !matches!(call, Call::Deduce { .. } | Call::Next { .. }) {
        return;
    }
    let mut ample = call.clone();
    *ample.meter_mut().expect("a call with a meter") = Meter::fresh(u64::MAX);
    let ended = rust::run(&ample, &mut writer.ledgers).expect("a ledger that is made");
    let charge = ended.end.meter[0];
    if charge == 0 || charge > SWEPT {
        return;
    }
    for limit in 0..=charge {
        *ample.meter_mut().expect("a call with a meter") = Meter::fresh(limit);
        writer.call(&ample);
    }
}

/// A random part.
fn part(writer: &mut Writer, mut author: Author) {
    let mut left = author.length();
    while left > 0 {
        let opens = author.opens(&writer.ledgers);
        let call = author.call(&writer.ledgers);
        writer.call(&call);
        let swept = !opens && author.random.chance(1, 12);
        if swept {
            sweep(writer, &call);
        }
        left -= usize::from(!opens);
    }
    writer.reset();
}

fn main() {
    let mut numbers = std::env::args()
        .skip(1)
        .map(|word| word.parse().expect("a number"));
    let parts = numbers.next().unwrap_or(60);
    let mut random = Random(numbers.next().unwrap_or(1));
    let mut writer = Writer::default();
    writer.line("# Written by tests/vectors/make.");
    writer.line(CARDS.trim_end());
    writer.line("reset");
    writer.line(LINES.trim_end());
    writer.line("reset");
    stops::write(&mut writer);
    closings::write(&mut writer);
    tunnel::write(&mut writer);
    writer.line(format_args!("\n{}", TIPS.trim_end()));
    tips::write(&mut writer);
    for number in 1..=parts {
        // Two parts have rows enough for postings.
        let kind = if number % (parts / 2).max(1) == 0 {
            Kind::Many
        } else {
            Kind::Tiny
        };
        writer.line(format_args!("\n# Random part {number}."));
        part(&mut writer, Author::new(Random(random.word()), kind, true));
    }
    for number in 1..=parts / 3 {
        writer.line(format_args!("\n# Random part {number} with Tips."));
        let author = Author::new(Random(random.word()), Kind::Tiny, true);
        part(&mut writer, author.with_tips(Random(random.word())));
    }
}

//! Measures the verified leaf functions beside the Rust's: the same rows, one process, each function so many times in a
//! row on one account and meter. Time is that of the processor, in nanoseconds a call.
//!
//!     bench [SAMPLES [WORDS]]          # WORDS: only the lines with these words in their name
//!
//! A sample is a whole run of so many calls, and a run of what is not the function's, which is taken from it:
//!
//! - what is set up once (rows tested and laid out on the one side, made on the other): a run of one call;
//! - where each call needs its literals afresh, because it uses them up (union on both sides, the Rust's prepare): a run
//!   of as many calls that end before their first read.
//!
//! Samples of the two sides alternate, and of each kind of run the least time counts: the machine may be busy.

#[allow(dead_code)]
#[path = "../differential/leaves/case.rs"]
mod case;
#[allow(dead_code)]
#[path = "../differential/leaves/library.rs"]
mod library;
mod place;
#[path = "../random.rs"]
mod random;

use case::{Row, SLOT_WORDS};
use random::Random;
use zetesis_ferraris::regions::{Leaves, Literal};

/// Calls in a run.
const TIMES: u64 = 250;
/// Rows of each kind.
const ROWS: usize = 16;
const ATOMS: u64 = 32_768;
const WORDS: usize = 512;

unsafe extern "C" {
    fn clock_gettime(clock: i32, time: *mut [i64; 2]) -> i32;
}

/// The processor time of this thread, in nanoseconds.
fn now() -> f64 {
    const THREAD: i32 = 3;
    let mut time = [0; 2];
    // SAFETY: the pointer is of two words, as the function wants.
    assert_eq!(unsafe { clock_gettime(THREAD, &mut time) }, 0);
    time[0] as f64 * 1e9 + time[1] as f64
}

fn timed(run: impl FnOnce() -> u64) -> f64 {
    let start = now();
    std::hint::black_box(run());
    now() - start
}

/// Codes over a few words, or all over the atoms; of conditions one sign an atom.
fn codes(random: &mut Random, words: u64, count: usize, both_signs: bool) -> Vec<u64> {
    let first = random.below(ATOMS / 64 - words) * 128;
    let mut codes: Vec<u64> = Vec::new();
    while codes.len() < count {
        let code = first + random.below(128 * words);
        let taken = |old: &u64| *old == code || (!both_signs && old / 2 == code / 2);
        if !codes.iter().any(taken) {
            codes.push(code);
        }
    }
    codes.sort_unstable();
    codes
}

fn row(random: &mut Random, words: u64, conditions: usize, outputs: usize) -> Row {
    Row {
        conditions: codes(random, words, conditions, false),
        outputs: codes(random, words, outputs, true),
    }
}

fn literals(codes: &[u64]) -> Vec<Literal> {
    codes
        .iter()
        .map(|&code| ((code / 2) as usize, code % 2 == 1))
        .collect()
}

/// A row with both sides' view of it.
struct Both {
    row: Row,
    conditions: Vec<Literal>,
    outputs: Vec<Literal>,
}

impl Both {
    fn new(row: Row) -> Self {
        Self {
            conditions: literals(&row.conditions),
            outputs: literals(&row.outputs),
            row,
        }
    }

    fn rust(&self) -> (&[Literal], &[Literal]) {
        (&self.conditions, &self.outputs)
    }
}

/// A run: the ticks made by so many calls, all of which end before their first read where it is told so.
type Run<'a> = Box<dyn Fn(u64, bool) -> u64 + 'a>;

/// What is taken from the time of a run.
#[derive(Clone, Copy)]
enum Rest {
    /// What is set up once.
    Once,
    /// What each call needs afresh.
    Each,
}

/// One measurement, with the runs of both sides and what is taken from each.
struct Item<'a> {
    name: &'static str,
    verified: (Run<'a>, Rest),
    rust: (Run<'a>, Rest),
}

/// The ticks, from an answer's words.
fn charged(result: u64, answer: [u64; 4]) -> u64 {
    assert_eq!(result, 0, "the row is fit");
    answer[3]
}

/// What is paid from: an account and a meter that do not run out, or an account of nothing.
fn paying(empty: bool) -> [u64; 4] {
    [if empty { 0 } else { u64::MAX }, 0, 0, u64::MAX]
}

fn prepare<'a>(name: &'static str, rows: &'a [Both]) -> Item<'a> {
    Item {
        name,
        verified: (
            Box::new(|times, empty| {
                let (mut slot, mut answer) = ([0; SLOT_WORDS], [0; 4]);
                let one = |both: &Both| {
                    let result = library::prepare(
                        ATOMS,
                        &both.row,
                        &paying(empty),
                        times,
                        &mut slot,
                        &mut answer,
                    );
                    charged(result, answer)
                };
                rows.iter().map(one).sum()
            }),
            Rest::Once,
        ),
        rust: (
            Box::new(|times, empty| {
                rows.iter()
                    .map(|both| Leaves::time_prepare(both.rust(), paying(empty)[0], times))
                    .sum()
            }),
            Rest::Each,
        ),
    }
}

fn includes<'a>(name: &'static str, pairs: &'a [(Both, Both)], stored: bool) -> Item<'a> {
    Item {
        name,
        verified: (
            Box::new(move |times, _| {
                let mut answer = [0; 4];
                let one = |(row, other): &(Both, Both)| {
                    let result = library::includes(
                        ATOMS,
                        &row.row,
                        &other.row,
                        u64::from(stored),
                        &paying(false),
                        times,
                        &mut answer,
                    );
                    charged(result, answer)
                };
                pairs.iter().map(one).sum()
            }),
            Rest::Once,
        ),
        rust: (
            Box::new(move |times, _| {
                let one = |(row, other): &(Both, Both)| {
                    Leaves::time_includes(&row.outputs, &other.outputs, stored, times)
                };
                pairs.iter().map(one).sum()
            }),
            Rest::Once,
        ),
    }
}

fn subsumes<'a>(name: &'static str, pairs: &'a [(Both, Both)], turned: bool) -> Item<'a> {
    Item {
        name,
        verified: (
            Box::new(move |times, _| {
                let mut answer = [0; 4];
                let one = |(row, other): &(Both, Both)| {
                    let result = library::subsumes(
                        ATOMS,
                        &row.row,
                        &other.row,
                        turned,
                        &paying(false),
                        times,
                        &mut answer,
                    );
                    charged(result, answer)
                };
                pairs.iter().map(one).sum()
            }),
            Rest::Once,
        ),
        rust: (
            Box::new(move |times, _| {
                let one = |(row, other): &(Both, Both)| {
                    Leaves::time_subsumes(row.rust(), other.rust(), turned, times)
                };
                pairs.iter().map(one).sum()
            }),
            Rest::Once,
        ),
    }
}

fn union<'a>(name: &'static str, pairs: &'a [(Both, Both)]) -> Item<'a> {
    // A maximum of 0 ends the call before its first read.
    let maximum = |empty: bool| if empty { 0 } else { 64 };
    Item {
        name,
        verified: (
            Box::new(move |times, empty| {
                let (mut slot, mut answer) = ([0; SLOT_WORDS], [0; 4]);
                let one = |(row, other): &(Both, Both)| {
                    let result = library::union_outputs(
                        ATOMS,
                        &row.row,
                        &other.row,
                        maximum(empty),
                        &paying(false),
                        times,
                        &mut slot,
                        &mut answer,
                    );
                    charged(result, answer)
                };
                pairs.iter().map(one).sum()
            }),
            Rest::Each,
        ),
        rust: (
            Box::new(move |times, empty| {
                let one = |(row, other): &(Both, Both)| {
                    Leaves::time_union_outputs(row.rust(), other.rust(), maximum(empty), times)
                };
                pairs.iter().map(one).sum()
            }),
            Rest::Each,
        ),
    }
}

/// A row and a region.
struct Matched {
    both: Both,
    held: Vec<u64>,
    cut: Vec<u64>,
}

impl Matched {
    /// All conditions hold, but for the last where `open`; then the last output is contradicted.
    fn new(row: Row, open: bool) -> Self {
        let (mut held, mut cut) = (vec![0; WORDS], vec![0; WORDS]);
        let mut mark = |code: u64| {
            let mask = if code % 2 == 1 { &mut held } else { &mut cut };
            mask[code as usize / 128] |= 1 << (code / 2 % 64);
        };
        let count = row.conditions.len() - usize::from(open);
        row.conditions[..count].iter().for_each(|&code| mark(code));
        if open {
            mark(row.outputs[row.outputs.len() - 1] ^ 1);
        }
        for (held, cut) in held.iter().zip(&cut) {
            assert_eq!(held & cut, 0, "the two sides lie apart");
        }
        Self {
            both: Both::new(row),
            held,
            cut,
        }
    }
}

fn deduction<'a>(name: &'static str, rows: &'a [Matched]) -> Item<'a> {
    Item {
        name,
        verified: (
            Box::new(|times, _| {
                let mut answer = [0; 4];
                let one = |row: &Matched| {
                    let result = library::deduction(
                        ATOMS,
                        &row.both.row,
                        &row.held,
                        &row.cut,
                        &paying(false),
                        times,
                        &mut answer,
                    );
                    charged(result, answer)
                };
                rows.iter().map(one).sum()
            }),
            Rest::Once,
        ),
        rust: (
            Box::new(|times, _| {
                let one = |row: &Matched| {
                    Leaves::time_deduction(row.both.rust(), &row.held, &row.cut, times)
                };
                rows.iter().map(one).sum()
            }),
            Rest::Once,
        ),
    }
}

/// The least times of a whole run and of what is taken from it.
#[derive(Clone, Copy)]
struct Least {
    whole: f64,
    rest: f64,
}

impl Least {
    const NONE: Self = Self {
        whole: f64::INFINITY,
        rest: f64::INFINITY,
    };

    fn sample(&mut self, (run, rest): &(Run<'_>, Rest)) {
        self.whole = self.whole.min(timed(|| run(TIMES, false)));
        self.rest = self.rest.min(match rest {
            Rest::Once => timed(|| run(1, false)),
            Rest::Each => timed(|| run(TIMES, true)),
        });
    }

    /// Nanoseconds a call.
    fn call(self) -> f64 {
        (self.whole - self.rest) / ROWS as f64 / TIMES as f64
    }
}

fn measure(item: &Item<'_>, samples: usize) -> f64 {
    let (ticks, expected) = ((item.verified.0)(1, false), (item.rust.0)(1, false));
    assert_eq!(
        ticks, expected,
        "{}: both sides make the same ticks",
        item.name
    );
    let (mut verified, mut rust) = (Least::NONE, Least::NONE);
    for _ in 0..samples {
        verified.sample(&item.verified);
        rust.sample(&item.rust);
    }
    let (verified, rust) = (verified.call(), rust.call());
    let ticks = ticks as f64 / ROWS as f64;
    println!(
        "{:44}{ticks:7.1}{rust:10.1}{verified:10.1}{:8.2}",
        item.name,
        verified / rust
    );
    verified / rust
}

fn main() {
    let mut words = std::env::args().skip(1);
    let samples = words
        .next()
        .map_or(101, |word| word.parse().expect("a number"));
    let wanted = words.next().unwrap_or_default();
    let mut random = Random(1);
    let mut rows = |words: u64, conditions: usize, outputs: usize| -> Vec<Row> {
        (0..ROWS)
            .map(|_| row(&mut random, words, conditions, outputs))
            .collect()
    };
    // Scattered rows are scalar, close ones packed.
    let (scattered, close) = (rows(400, 6, 10), rows(2, 8, 24));
    let (large_scattered, large_close) = (rows(500, 16, 64), rows(4, 16, 64));
    let both = |rows: &[Row]| -> Vec<Both> { rows.iter().cloned().map(Both::new).collect() };
    // A row beside one with a condition more and every other output.
    let weaker = |rows: &[Row]| -> Vec<(Both, Both)> {
        let pair = |row: &Row| {
            let mut fewer = row.clone();
            fewer.conditions.pop();
            let mut less = row.clone();
            less.outputs = row.outputs.iter().copied().step_by(2).collect();
            (Both::new(fewer), Both::new(less))
        };
        rows.iter().map(pair).collect()
    };
    // Two rows of equal conditions, each with its part of the outputs, and a half in common.
    let parts = |rows: &[Row], grows: bool| -> Vec<(Both, Both)> {
        let pair = |row: &Row| {
            let (mut left, mut right) = (row.clone(), row.clone());
            left.outputs = row.outputs.iter().copied().step_by(2).collect();
            if grows {
                right.outputs.drain(..row.outputs.len() / 2);
            }
            (Both::new(left), Both::new(right))
        };
        rows.iter().map(pair).collect()
    };
    let matched = |rows: &[Row], open: bool| -> Vec<Matched> {
        let apart = |row: &Row| {
            let mut row = row.clone();
            row.outputs
                .retain(|output| row.conditions.iter().all(|code| code / 2 != output / 2));
            Matched::new(row, open)
        };
        rows.iter().map(apart).collect()
    };
    println!(
        "{:44}{:>7}{:>10}{:>10}{:>8}",
        "", "ticks", "Rust, ns", "here, ns", "ratio"
    );
    let mut worst = 0.0_f64;
    let kinds = [
        ("scalar", &scattered),
        ("packed", &close),
        ("scalar, 16 and 64", &large_scattered),
        ("packed, 16 and 64", &large_close),
    ];
    for (kind, rows) in kinds {
        let name = |what: &str| -> &'static str { format!("{what}, {kind}").leak() };
        let (alone, weaker) = (both(rows), weaker(rows));
        let (equal, grown) = (parts(rows, false), parts(rows, true));
        let (forced, required) = (matched(rows, false), matched(rows, true));
        let items = [
            deduction(name("deduction, Force"), &forced),
            deduction(name("deduction, Require"), &required),
            includes(name("includes"), &weaker, true),
            includes(name("includes, two lists"), &weaker, false),
            subsumes(name("subsumes"), &weaker, false),
            union(name("union, nothing new"), &equal),
            union(name("union, growing"), &grown),
            prepare(name("prepare"), &alone),
        ];
        for item in items.iter().filter(|item| item.name.contains(&wanted)) {
            worst = worst.max(measure(item, samples));
        }
    }
    println!("the worst ratio is {worst:.2}");
}

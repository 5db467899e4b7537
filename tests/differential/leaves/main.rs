//! Compares the verified leaf functions with the Rust's, call by call: for random rows and regions, on every meter and
//! account up to the charge.
//!
//!     leaves [ROUNDS [SEED]]
//!
//! It ends with 'N calls compared, M differ', and with exit code 0 only if M is 0 and all that must occur did.

mod case;
#[path = "../contradicted.rs"]
mod contradicted;
#[path = "../far.rs"]
mod far;
mod generate;
mod library;
#[path = "../../random.rs"]
mod random;
mod rattle;
#[path = "../requires.rs"]
mod requires;
mod rust;
mod shapes;
mod shrink;
#[path = "../verdict.rs"]
mod verdict;

use std::process::ExitCode;

use case::{Case, End, Function, Row};
use oracle::literals::{MOST_ATOMS, mask_words};
use random::Random;
use shapes::Counts;
use verdict::verdict;

/// Up to this charge every account is tried with every meter; above it each alone, and both together.
const ALL_PAIRS: u64 = 10;
/// So many differences of a function are shown, at their smallest.
const SHOWN: u64 = 3;

#[derive(Default)]
struct Comparison {
    counts: Counts,
    differ: u64,
    shown: [u64; Function::ALL.len()],
}

fn differs(case: &Case) -> bool {
    rust::run(case) != rattle::run(case)
}

impl Comparison {
    fn compare(&mut self, case: &Case, shapes: u64) -> End {
        let expected = rust::run(case);
        self.counts.add(case, shapes, &expected);
        if expected != rattle::run(case) {
            self.differ += 1;
            self.show(case);
        }
        expected
    }

    fn show(&mut self, case: &Case) {
        let shown = &mut self.shown[case.function as usize];
        *shown += 1;
        if *shown > SHOWN {
            return;
        }
        let case = shrink::shrink(case.clone(), differs);
        println!("differs: {case}");
        println!("  the Rust: {}", rust::run(&case));
        println!("  verified: {}", rattle::run(&case));
    }

    /// A case on every meter and account up to its charge. Gives its end where nothing runs out.
    fn sweep(&mut self, random: &mut Random, mut case: Case) -> End {
        let shapes = shapes::of_case(&case);
        let full = self.compare(&case, shapes);
        if !case.function.ticks() {
            return full;
        }
        for limit in 0..=full.charge {
            // What is charged before the call is nothing, little, or nearly all there is.
            let before = [0, random.word() >> 40, u64::MAX - limit];
            case.charged = random.pick(&before);
            case.limit = case.charged + limit;
            self.compare(&case, shapes);
        }
        (case.charged, case.limit) = (random.within(1, 9), 0);
        self.compare(&case, shapes::of_case(&case));
        case.charged = 0;
        if !case.function.pays() {
            return full;
        }
        case.limit = u64::MAX;
        for account in 0..=full.charge {
            case.account = account;
            self.compare(&case, shapes);
        }
        for account in 0..=full.charge {
            let limits = if full.charge <= ALL_PAIRS {
                0..=full.charge
            } else {
                account.saturating_sub(1)..=account + 1
            };
            for limit in limits {
                (case.account, case.limit) = (account, limit);
                self.compare(&case, shapes);
            }
        }
        full
    }

    /// All outputs of a row in turn, as a caller publishes them: each may be decided before the next is asked for.
    fn publish(&mut self, random: &mut Random, mut case: Case) {
        let decides = random.chance(1, 2);
        case.cursor = [0; 4];
        loop {
            let end = self.sweep(random, case.clone());
            let case::Answer::Output(code) = end.answer else {
                return;
            };
            case.cursor = [end.words[0], end.words[1], end.words[2], end.words[3]];
            let (word, bit) = (code as usize / 128, 1 << (code / 2 % 64));
            if decides && (case.held[word] | case.cut[word]) & bit == 0 {
                let mask = if code % 2 == 1 {
                    &mut case.held
                } else {
                    &mut case.cut
                };
                mask[word] |= bit;
            }
        }
    }

    /// A row with itself, over the most atoms.
    fn alone(&mut self, random: &mut Random, function: Function, row: &Row) {
        let mut case = Case::new(function, MOST_ATOMS);
        case.row = row.clone();
        case.other = row.clone();
        if function.has_region() {
            let words = mask_words(MOST_ATOMS);
            (case.held, case.cut) = (vec![0; words], vec![0; words]);
        }
        if function == Function::Includes {
            case.row.conditions.clear();
            case.other.conditions.clear();
        }
        if function == Function::UnionOutputs {
            case.number = 64;
        }
        self.sweep(random, case);
    }

    /// One atom too many, with words for it.
    fn beyond(&mut self, function: Function) {
        let mut case = Case::new(function, far::TOO_MANY);
        if function.has_region() {
            let words = mask_words(far::TOO_MANY);
            (case.held, case.cut) = (vec![0; words], vec![0; words]);
        }
        self.compare(&case, shapes::of_case(&case));
    }

    /// What random rows seldom have: the largest row, the empty one, groups on both sides of the end of 8 bits and up to the last, and
    /// unions at the greatest maximum and one over it.
    fn boundary(&mut self, random: &mut Random) {
        let largest = [1, 2, 40].map(generate::largest);
        let far = [1, 2, 4].map(generate::far_groups);
        let rows = largest.iter().chain(far.as_flattened());
        let fits = |row: &&Row| row.conditions.len() <= 16 && row.outputs.len() <= 64;
        for row in rows.chain(&[Row::default()]).filter(fits) {
            Function::ALL
                .into_iter()
                .for_each(|function| self.alone(random, function, row));
        }
        for function in Function::ALL {
            self.beyond(function);
        }
        for over in [false, true] {
            let mut case = Case::new(Function::UnionOutputs, MOST_ATOMS);
            case.row = generate::largest(2);
            case.other = case.row.clone();
            case.row.outputs.truncate(40);
            case.other.outputs.drain(..20);
            if over {
                case.other.outputs.push(2 * MOST_ATOMS - 1);
            }
            case.number = 64;
            self.sweep(random, case);
        }
    }

    /// Some cases of each function, more where the charge is small, and one that may be unfit.
    fn round(&mut self, random: &mut Random) {
        for function in Function::ALL {
            for _ in 0..if function.pays() { 1 } else { 8 } {
                let case = generate::case(random, function);
                self.sweep(random, case);
            }
            if function == Function::NextOutput {
                let case = generate::case(random, function);
                self.publish(random, case);
            }
            if function == Function::Deduction {
                let case = generate::required(random);
                self.sweep(random, case);
            }
            let mut damaged = generate::case(random, function);
            generate::damage(random, &mut damaged);
            let shapes = shapes::of_case(&damaged);
            self.compare(&damaged, shapes);
        }
    }
}

fn main() -> ExitCode {
    let mut numbers = std::env::args()
        .skip(1)
        .map(|word| word.parse().expect("a number"));
    let rounds: u64 = numbers.next().unwrap_or(3000);
    let mut random = Random(numbers.next().unwrap_or(1));
    let mut comparison = Comparison::default();
    comparison.boundary(&mut random);
    for _ in 0..rounds {
        comparison.round(&mut random);
    }
    let missing = comparison.counts.report();
    verdict(comparison.counts.calls(), comparison.differ, missing)
}

//! Times of both sides, taken in turns. Of each call the least time in a run counts, and of the runs the middle one: other work
//! on the machine then does little harm.

use std::time::{Duration, Instant};

/// Runs of each line.
const RUNS: usize = 5;
/// The least length of a run, and the least number of turns of each side.
const RUN: Duration = Duration::from_millis(60);
const TURNS: usize = 15;

/// The nanoseconds that a call takes.
pub fn timed<T>(call: impl FnOnce() -> T) -> f64 {
    let start = Instant::now();
    std::hint::black_box(call());
    start.elapsed().as_nanos() as f64
}

/// A side's turn: its calls, each set up and made, and the time of each, which is that of the call alone.
pub type Side<'a> = Box<dyn FnMut() -> Vec<f64> + 'a>;

/// The Rust, the verified calls, and the acceptance that each of them begins with.
pub struct Sides<'a> {
    pub rust: Side<'a>,
    pub verified: Side<'a>,
    pub acceptance: Side<'a>,
}

/// One run: of each side the sum of its calls, each at its least time.
fn run(sides: &mut Sides<'_>) -> [f64; 3] {
    let mut least: [Vec<f64>; 3] = [Vec::new(), Vec::new(), Vec::new()];
    let start = Instant::now();
    for turn in 0.. {
        if TURNS <= turn && RUN <= start.elapsed() {
            break;
        }
        let turns = [&mut sides.rust, &mut sides.verified, &mut sides.acceptance];
        for (side, least) in turns.into_iter().zip(&mut least) {
            let times = side();
            least.resize(times.len(), f64::INFINITY);
            least
                .iter_mut()
                .zip(times)
                .for_each(|(least, time)| *least = least.min(time));
        }
    }
    least.map(|times| times.iter().sum())
}

/// The middle one.
fn middle(mut numbers: Vec<f64>) -> f64 {
    numbers.sort_by(f64::total_cmp);
    numbers[numbers.len() / 2]
}

pub fn title(what: &str) {
    println!("{what:46}    Rust    ours   check   ratio  without check");
}

/// Prints a line: the times in microseconds, divided by a number, the ratio, and the ratio without the acceptance.
pub fn measure(name: &str, by: usize, mut sides: Sides<'_>) {
    let runs: Vec<[f64; 3]> = (0..RUNS).map(|_| run(&mut sides)).collect();
    let of = |figure: &dyn Fn(&[f64; 3]) -> f64| middle(runs.iter().map(figure).collect());
    let time = |side: usize| of(&|run| run[side] / 1e3 / by as f64);
    println!(
        "{name:46}{:8.2}{:8.2}{:8.2}{:8.3}{:8.2}",
        time(0),
        time(1),
        time(2),
        of(&|run| run[1] / run[0]),
        of(&|run| (run[1] - run[2]) / run[0]),
    );
}

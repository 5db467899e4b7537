//! Random calls, by the generator of tests/differential: some of every operation and every answer, on ledgers as calls leave them.

use crate::call::Call;
use crate::generate::{Author, Kind, Ledgers};
use crate::given::Book;
use crate::lines::{Books, Lines, kind};
use crate::random::Random;
use crate::rust;

/// Of each answer of each operation so many calls are kept, and of those in scripts with Tips.
const EACH: u64 = 5;
const EACH_WITH_TIPS: u64 = 2;
/// The scripts that are looked at for them.
const SCRIPTS: u64 = 400;

/// The call with its ledgers at the places 0 and 1.
fn placed(call: &Call) -> Call {
    let mut call = call.clone();
    match &mut call {
        Call::Make { place, .. }
        | Call::Offer { place, .. }
        | Call::Hit { place, .. }
        | Call::Begin { place }
        | Call::Candidates { place, .. }
        | Call::Deduce { place, .. }
        | Call::Next { place, .. }
        | Call::Close { place, .. } => *place = 0,
        Call::Seed { tier, store, .. } | Call::Deliver { tier, store, .. } => {
            (*tier, *store) = (0, 1);
        }
        Call::Decide { .. } | Call::Set { .. } | Call::Unfit { .. } => {}
    }
    call
}

/// The ledgers that a call names.
fn books(call: &Call, ledgers: &Ledgers) -> Books {
    let book = |place: Option<usize>| {
        let ledger = place.and_then(|place| ledgers[place].clone());
        ledger.map(Book::new)
    };
    let (tier, store) = call.places();
    match call {
        Call::Make { .. } => Books::default(),
        _ => Books {
            tier: book(tier),
            store: book(store),
        },
    }
}

/// Scripts by these authors, of which the calls are kept that `wanted` says.
fn write_by(
    lines: &mut Lines,
    name: &str,
    mut author: impl FnMut() -> Author,
    (each, wanted): (u64, fn(&Call) -> bool),
) {
    let mut kept = Lines::default();
    for script in 0..SCRIPTS {
        let mut author = author();
        let mut ledgers = Ledgers::default();
        for number in 0..author.length() {
            let call = author.call(&ledgers);
            if call.operation().is_some() && wanted(&call) {
                let mut books = books(&call, &ledgers);
                let answer = Lines::dry(&placed(&call), &mut books.clone()).answer;
                if kept
                    .counts
                    .get(&kind(&call, answer))
                    .is_none_or(|&count| count < each)
                {
                    kept.call(
                        &format!("{name}={script}:{number}"),
                        &placed(&call),
                        &mut books,
                    );
                }
            }
            rust::run(&call, &mut ledgers);
        }
    }
    lines.join(kept);
}

pub fn write(lines: &mut Lines) {
    let mut random = Random(1);
    let author = || Author::new(Random(random.word()), Kind::Tiny, false);
    write_by(lines, "script", author, (EACH, |_| true));
}

/// The calls that bring rows, in scripts with Tips.
pub fn write_tips(lines: &mut Lines) {
    let mut random = Random(2);
    let author = || {
        let author = Author::new(Random(random.word()), Kind::Tiny, false);
        author.with_tips(Random(random.word()))
    };
    let wanted: fn(&Call) -> bool = |call| call.receiver().is_some();
    write_by(lines, "tips", author, (EACH_WITH_TIPS, wanted));
}

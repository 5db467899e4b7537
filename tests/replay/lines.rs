//! The lines of calls and of their ends, as crates/replay/src/main.rt reads and writes them.

use std::collections::BTreeMap;

use oracle::{Answer, Ledger};

use crate::call::Call;
use crate::end::{End, Scratch, USED, lengths};
use crate::generate::Ledgers;
use crate::given::Book;
use crate::layout::{HEAD, POSTINGS, SLOT, limit_words};
use crate::rust;

/// The room that the program has for slots, for postings, and for each of the four other slices.
const ROOM: [usize; 6] = [
    67 * SLOT,
    67 * POSTINGS,
    6 * SLOT,
    6 * SLOT,
    6 * SLOT,
    6 * SLOT,
];
/// What stands for a word that was used before: it is short.
const FILL: u64 = 4;

/// All that is lent to a call: the words of crate `calls`, and six slices.
#[derive(Clone, PartialEq)]
pub struct Lent {
    words: Vec<u64>,
    slices: [Vec<u64>; 6],
}

/// The text of a list: its length, then its words, a run of zeros as 0 and how many there are.
fn list(words: &[u64]) -> String {
    let mut text = format!(" {}", words.len());
    for run in words.chunk_by(|one, next| *one == 0 && *next == 0) {
        let word = if run[0] == USED { FILL } else { run[0] };
        text += &format!(" {word}");
        if word == 0 {
            text += &format!(" {}", run.len());
        }
    }
    text
}

impl Lent {
    fn text(&self) -> String {
        let slices: String = self.slices.iter().map(|slice| list(slice)).collect();
        list(&self.words) + &slices
    }

    fn has_room(&self) -> bool {
        let mut rooms = self.slices.iter().zip(ROOM);
        rooms.all(|(slice, room)| slice.len() <= room)
    }
}

/// The ledgers of a call: the tier, or the only one, and the store.
#[derive(Clone, Default)]
pub struct Books {
    pub tier: Option<Book>,
    pub store: Option<Book>,
}

/// The words of a ledger: header, slots, postings.
type Words = ([u64; HEAD], Vec<u64>, Vec<u64>);

impl Books {
    /// The ledger itself. A Make has a used one, in which the limits stand; a Decide the number of atoms alone.
    fn first(&self, call: &Call, made: bool) -> Words {
        match call {
            Call::Make { limits, .. } if !made => {
                let mut head = [USED; HEAD];
                head[..10].copy_from_slice(&limit_words(limits));
                let (slots, postings) = lengths(limits.tier_rows);
                (head, vec![USED; slots], vec![USED; postings])
            }
            Call::Decide { atoms, .. } => {
                let mut head = [0; HEAD];
                head[0] = *atoms;
                (head, Vec::new(), Vec::new())
            }
            _ => words(self.tier.as_ref()),
        }
    }

    /// What is lent to a call, before it or after it.
    fn lent(&self, call: &Call, end: &End, made: bool) -> Lent {
        let (head, slots, postings) = self.first(call, made);
        let (store, store_slots, store_postings) = words(self.store.as_ref());
        let given = match call {
            Call::Make { number, .. } => [*number, 0, 0],
            Call::Offer { source, .. } => [*source, 0, 0],
            Call::Hit { position, .. }
            | Call::Deduce { position, .. }
            | Call::Next { position, .. } => [*position, 0, 0],
            // Any word but 0 is true.
            Call::Decide { atom, value, .. } => [0, *atom, if *value { atom | 1 } else { 0 }],
            _ => [0; 3],
        };
        let (first, second) = match call {
            Call::Offer {
                conditions,
                outputs,
                ..
            } => (conditions.clone(), outputs.clone()),
            Call::Candidates { atoms, .. } => (atoms.clone(), end.found.clone()),
            Call::Seed { .. } | Call::Deliver { .. } => (store_slots, store_postings),
            _ => (end.region.held.clone(), end.region.cut.clone()),
        };
        let scratch = |length: u64| match end.scratch {
            Scratch::Zeroed => vec![0; length as usize],
            _ => vec![USED; length as usize],
        };
        let (rows, atoms) = match call {
            Call::Close { .. } => (scratch(head[1]), scratch(head[0])),
            _ => (Vec::new(), Vec::new()),
        };
        let words = [
            &head[..],
            &store,
            &end.answer,
            &end.meter,
            &end.cursor,
            &given,
        ];
        Lent {
            words: words.concat(),
            slices: [slots, postings, first, second, rows, atoms],
        }
    }
}

fn words(book: Option<&Book>) -> Words {
    match book {
        None => ([0; HEAD], Vec::new(), Vec::new()),
        Some(book) => (book.head(), book.slots(), book.postings()),
    }
}

/// The lines so far, and how many calls ended with each answer.
#[derive(Default)]
pub struct Lines {
    pub calls: String,
    pub ends: String,
    pub counts: BTreeMap<String, u64>,
}

/// What a call came to.
pub struct Ended {
    pub answer: Answer,
    pub charge: u64,
}

/// The function of include/ledger.h that a call is of.
fn function(call: &Call) -> &'static str {
    match Call::NAMES[call.operation().expect("a call")] {
        "next" => "next_output",
        name => name,
    }
}

/// The answer without its value.
pub fn kind(call: &Call, answer: Answer) -> String {
    let name = function(call);
    let text = answer.to_string();
    let word = text.split(' ').next().unwrap_or("");
    match answer {
        Answer::Refused(_) => format!("{name} {text}"),
        _ => format!("{name} {word}"),
    }
}

impl Lines {
    /// A call on these ledgers, of which the tier is at place 0 and the store at place 1; it is written where it is about something.
    fn run(&mut self, about: Option<&str>, call: &Call, books: &mut Books) -> Ended {
        let ledger = |book: &Option<Book>| book.as_ref().map(|book| book.ledger.clone());
        let mut ledgers: Ledgers = [ledger(&books.tier), ledger(&books.store), None, None];
        let before = books.lent(call, &End::lent(call, &ledgers), false);
        let ended = rust::run(call, &mut ledgers).expect("a call of ledgers that are there");
        let refused = ended.end.result != 0;
        let [tier, store, ..] = ledgers;
        let put = |book: &mut Option<Book>, ledger: Option<Ledger>| match (book, ledger) {
            (Some(book), Some(ledger)) => book.ledger = ledger,
            (book, ledger) => *book = ledger.map(Book::new),
        };
        if !refused {
            put(&mut books.tier, tier);
            put(&mut books.store, store);
            if let Some(book) = &mut books.tier {
                book.begun = matches!(call, Call::Begin { .. });
            }
        }
        let charge = if refused { 0 } else { ended.end.answer[2] };
        if let Some(about) = about.filter(|_| before.has_room()) {
            let after = match refused {
                true => before.clone(),
                false => books.lent(call, &ended.end, true),
            };
            let name = function(call);
            self.calls += &format!("{name} {about}{}\n", before.text());
            self.ends += &format!("{name} {about} {}{}\n", ended.end.result, after.text());
            *self.counts.entry(kind(call, ended.answer)).or_default() += 1;
        }
        Ended {
            answer: ended.answer,
            charge,
        }
    }

    /// Writes a call, and gives the ledgers after it.
    pub fn call(&mut self, about: &str, call: &Call, books: &mut Books) -> Ended {
        assert!(!about.contains(' '));
        self.run(Some(about), call, books)
    }

    /// Takes in other lines.
    pub fn join(&mut self, other: Self) {
        self.calls += &other.calls;
        self.ends += &other.ends;
        for (answer, count) in other.counts {
            *self.counts.entry(answer).or_default() += count;
        }
    }

    /// Runs a call without a line.
    pub fn dry(call: &Call, books: &mut Books) -> Ended {
        Self::default().run(None, call, books)
    }
}

//! One closing after another, each held against brute force.

use crate::boundary::SLOT_WORDS;
use crate::generate::AMPLE;
use crate::ledger::{Case, Closing, FOUNDED, FULL, HITS, Ledger, STALE, UNSHARED};
use crate::random::Random;
use crate::rounds::{self, SCAN_ROWS, Told};
use crate::rows::{Closures, Ending, Literals, Row, covers, force_alike, regions};

/// How the comparison is made to fail, to show that it can.
#[derive(Clone, Copy, PartialEq, Eq)]
pub enum Spoil {
    Nothing,
    /// One row is left out of brute force's list.
    Drop,
    /// One hit too many is awaited of the first row that fires.
    Hits,
    /// Any two ledgers over the same atoms count as forcing alike.
    Alike,
    /// A stopped closing is awaited to have stopped one tick later.
    Stopped,
    /// The output of the first Require is awaited in place of the last one's.
    Named,
}

pub struct Run {
    pub random: Random,
    pub spoil: Spoil,
    pub closings: u64,
    pub differ: u64,
    pub occurred: [(&'static str, u64); MUST_OCCUR.len()],
}

/// A ledger that learns no more, and what brute force says of its rows: of those that it holds and, if it never evicted, of those that it took.
pub struct Subject {
    pub ledger: Ledger,
    pub rows: Vec<Row>,
    pub regions: Vec<Literals>,
    closures: Vec<Closures>,
}

/// What must occur for a run to count.
const MUST_OCCUR: [&str; 22] = [
    "Closed with nothing decided",
    "Closed with something decided",
    "Closed with a round by postings",
    "Conflict",
    "Stopped with nothing decided",
    "Stopped with something decided",
    "Closed with an output named",
    "Conflict with an output named",
    "Stopped with an output named",
    "an output named by the last of several Requires",
    "an output named that is not the least at the end",
    "a ledger that evicted",
    "a ledger with a packed row",
    "a ledger with rows of both sources",
    "a ledger of more than 64 rows",
    "a ledger that took rows in a transfer",
    "two that force alike, none evicted",
    "two that force alike, one evicted",
    "two that force alike by other rows",
    "two that force alike, by postings and by full scan",
    "two that do not force alike, none evicted",
    "two that do not force alike, one evicted",
];

impl Run {
    pub fn start(seed: u64, spoil: Spoil) -> Run {
        Run {
            random: Random(seed),
            spoil,
            closings: 0,
            differ: 0,
            occurred: MUST_OCCUR.map(|what| (what, 0)),
        }
    }

    pub fn occurs(&mut self, what: &str, is_so: bool) {
        let count = self.occurred.iter_mut().find(|(name, _)| *name == what);
        count.expect("a name of the list above").1 += u64::from(is_so);
    }

    /// Counts what differs and shows the first few.
    pub fn expect(&mut self, fault: Option<&str>, rows: &[Row], region: Literals) {
        let Some(fault) = fault else { return };
        self.differ += 1;
        if self.differ <= 5 {
            println!("{fault}: region {region}, rows {rows:?}");
        }
    }

    fn closures(&mut self, rows: &[Row], regions: &[Literals]) -> Closures {
        let mut rows = rows.to_vec();
        if self.spoil == Spoil::Drop && !rows.is_empty() {
            rows.remove(self.random.below(rows.len() as u64) as usize);
        }
        Closures::under(&rows, regions)
    }

    pub fn subject(&mut self, ledger: Ledger) -> Subject {
        let (rows, regions) = (ledger.rows(), regions(ledger.atoms));
        let evicted = ledger.has_evicted();
        let packed = ledger
            .book
            .slots
            .chunks(SLOT_WORDS)
            .any(|slot| slot[2] != 0);
        self.occurs("a ledger that evicted", evicted);
        self.occurs("a ledger with a packed row", packed);
        let both = (1..rows.len() as u64).contains(&ledger.book.head[FOUNDED]);
        self.occurs("a ledger with rows of both sources", both);
        self.occurs("a ledger of more than 64 rows", rows.len() > SCAN_ROWS);
        let alike = evicted || force_alike(&rows, &ledger.taken, &regions);
        let fault = first_fault(&[
            (covers(&ledger.taken, &rows), "a rule is invented"),
            (alike, "rows held and taken do not force alike"),
        ]);
        self.expect(fault, &rows, Literals::NONE);
        let mut closures = vec![self.closures(&rows, &regions)];
        if !evicted {
            closures.push(self.closures(&ledger.taken, &regions));
        }
        Subject {
            ledger,
            rows,
            regions,
            closures,
        }
    }

    /// Closes a region with an ample meter; gives how it ended.
    pub fn close(&mut self, subject: &mut Subject, given: Literals) -> Ending {
        let before = subject.ledger.clone();
        let closing = subject.ledger.close(given, AMPLE, self.random.word());
        let told = self.told(&subject.rows, given);
        self.closings += 1;
        let fault = subject.fault(&before, given, &closing, &told);
        self.expect(fault, &subject.rows, given);
        self.count(subject, given, closing.ending());
        self.count_named(&closing, &told);
        if self.random.chance(1, 200) {
            self.stop_everywhere(&before, &closing, &subject.rows, &told);
        }
        closing.ending()
    }

    fn count(&mut self, subject: &Subject, given: Literals, ending: Ending) {
        let unchanged = ending == Ending::Closed(given);
        let conflict = ending == Ending::Conflict;
        let decided = !unchanged && !conflict;
        let by_postings = decided && subject.rows.len() > SCAN_ROWS;
        self.occurs("Closed with nothing decided", unchanged);
        self.occurs("Closed with something decided", decided);
        self.occurs("Closed with a round by postings", by_postings);
        self.occurs("Conflict", conflict);
    }

    fn count_named(&mut self, closing: &Closing, told: &Told) {
        let named = closing.named.is_some();
        let first = told.requires.first().map(|first| first.output);
        let least = told.named().map(|last| last.row.contradicted(told.region));
        let least = least.and_then(Literals::least);
        let closed = closing.case == Case::Closed;
        self.occurs("Closed with an output named", named && closed);
        self.occurs("Conflict with an output named", named && !closed);
        self.occurs(
            "an output named by the last of several Requires",
            first != closing.named,
        );
        self.occurs(
            "an output named that is not the least at the end",
            least != closing.named,
        );
    }

    fn told(&self, rows: &[Row], given: Literals) -> Told {
        let mut told = rounds::close(rows, given);
        if self.spoil == Spoil::Named {
            told.requires.truncate(1);
        }
        let first = told.hits.iter().position(|hits| *hits > 0);
        if let (Spoil::Hits, Some(first)) = (self.spoil, first) {
            told.hits[first] += 1;
        }
        told
    }

    /// The same closing with every limit up to its ticks. Below them it is Stopped at the limit, and the region lies between that of the limit before
    /// and the one that the whole closing leaves: so many atoms are decided, and it stands where the rounds stand after as many.
    fn stop_everywhere(&mut self, ledger: &Ledger, whole: &Closing, rows: &[Row], told: &Told) {
        let late = u64::from(self.spoil == Spoil::Stopped);
        let given = told.steps[0].region;
        let mut least = given;
        for limit in 0..=whole.ticks {
            let mut after = ledger.clone();
            let closing = after.close(given, limit, limit);
            let decided = u64::from(closing.region.without(given).count());
            let hits = after.hits() - ledger.hits();
            let stopped = Closing {
                case: Case::Stopped,
                ticks: limit + late,
                region: closing.region,
                named: closing.named,
                scratch_is_zero: true,
            };
            let step = told.steps.get(decided as usize);
            let stands = step.is_some_and(|step| step.region == closing.region);
            let named = step.and_then(|step| step.named).map(|last| last.output);
            let between = closing.region.contains(least) && whole.region.contains(closing.region);
            let ended = limit == whole.ticks;
            let right = closing == if ended { *whole } else { stopped };
            // Each hit of a closing that goes on so far is of a reading that decided an atom, and one reading decides an atom.
            let earned = ended || hits <= decided && (hits > 0) == (decided > 0);
            let fault = first_fault(&[
                (right, "a limit does not stop a closing"),
                (between && stands, "stopped with another region"),
                (
                    named == closing.named,
                    "stopped with another output named than by the last Require",
                ),
                (
                    earned,
                    "stopped with other hits than the atoms decided earn",
                ),
            ]);
            self.expect(fault, rows, given);
            self.occurs(
                "Stopped with nothing decided",
                !ended && closing.region == given,
            );
            self.occurs(
                "Stopped with something decided",
                !ended && closing.region != given,
            );
            self.occurs("Stopped with an output named", !ended && named.is_some());
            least = closing.region;
        }
    }
}

fn first_fault(checks: &[(bool, &'static str)]) -> Option<&'static str> {
    checks
        .iter()
        .find(|(right, _)| !right)
        .map(|(_, fault)| *fault)
}

impl Subject {
    /// What is wrong with a closing of the ledger, which was `before` it.
    fn fault(
        &self,
        before: &Ledger,
        given: Literals,
        closing: &Closing,
        told: &Told,
    ) -> Option<&'static str> {
        let ending = closing.ending();
        let smallest = |closures: &Closures| closures.smallest(given) == ending;
        first_fault(&[
            (closing.case != Case::Stopped, "stopped by an ample meter"),
            (
                self.closures.iter().all(smallest),
                "another end than the smallest closed region",
            ),
            (told.ending == ending, "another end than that of the rounds"),
            (
                told.region == closing.region,
                "another region than the rounds leave",
            ),
            (
                told.named().map(|last| last.output) == closing.named,
                "another output named than by the last Require",
            ),
            (closing.scratch_is_zero, "scratch is not zero"),
            (
                after(before, told).same(&self.ledger),
                "another ledger than with the hits counted",
            ),
        ])
    }
}

/// The ledger as a closing must leave it.
fn after(before: &Ledger, told: &Told) -> Ledger {
    let mut ledger = before.clone();
    for (slot, hits) in ledger.book.slots.chunks_mut(SLOT_WORDS).zip(&told.hits) {
        slot[HITS] += hits;
        slot[UNSHARED] += hits;
    }
    ledger.book.head[FULL] = 0;
    ledger
}

impl Ledger {
    /// The hits of all rows.
    fn hits(&self) -> u64 {
        let slots = self.book.slots.chunks(SLOT_WORDS);
        slots.map(|slot| slot[HITS]).sum()
    }

    /// Equal but for the postings and whether they are built: the rows say what they would be.
    fn same(&self, other: &Ledger) -> bool {
        let mut head = self.book.head;
        head[STALE] = other.book.head[STALE];
        head == other.book.head && self.book.slots == other.book.slots
    }
}

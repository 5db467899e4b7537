//! What occurred in the calls, counted; and what must occur.

use oracle::{Answer, Header, Ledger};

use crate::call::{Call, Meter};
use crate::compare::{Made, World};
use crate::contradicted;
use crate::distant;
use crate::sources;
use crate::told::{Require, Told};

const OPERATIONS: usize = Call::NAMES.len();

/// The endings of each operation, all of which must occur. Inside: after the first tick.
const ENDINGS: [&[&str]; OPERATIONS] = [
    &["Done", "Refused 1", "Refused 2"],
    &[
        "Added",
        "Subsumed",
        "Declined",
        "Shut",
        "Stopped",
        "Stopped inside",
        "Refused 1",
        "Refused 2",
        "Refused 3",
        "Refused 4",
        "Refused 11",
    ],
    &["Done", "Refused 1", "Refused 2", "Refused 3", "Refused 5"],
    &["Done", "Refused 1", "Refused 2", "Refused 3"],
    &[
        "Found",
        "Stopped",
        "Stopped inside",
        "Refused 1",
        "Refused 2",
        "Refused 3",
    ],
    &[
        "Nothing",
        "Force",
        "Require",
        "Stopped",
        "Stopped inside",
        "Refused 1",
        "Refused 2",
        "Refused 3",
        "Refused 5",
        "Refused 6",
    ],
    &[
        "Output",
        "End",
        "Stopped",
        "Stopped inside",
        "Refused 1",
        "Refused 2",
        "Refused 3",
        "Refused 5",
        "Refused 6",
        "Refused 8",
    ],
    TRANSFER,
    TRANSFER,
    &[
        "Closed",
        "Conflict",
        "Stopped",
        "Stopped inside",
        "Refused 1",
        "Refused 2",
        "Refused 3",
        "Refused 6",
    ],
    &["True", "False", "Refused 6"],
];

const TRANSFER: &[&str] = &[
    "Done",
    "Stopped",
    "Stopped inside",
    "Refused 1",
    "Refused 2",
    "Refused 3",
    "Refused 7",
];

/// The most endings that an operation has.
const MOST_ENDINGS: usize = 11;

/// The name of an ending.
fn ending(answer: Answer, charge: u64) -> String {
    match answer {
        Answer::Stopped if charge > 0 => "Stopped inside".to_string(),
        Answer::Refused(_) => answer.to_string(),
        _ => {
            let text = answer.to_string();
            text.split(' ').next().unwrap_or_default().to_string()
        }
    }
}

/// The shapes that must occur.
const SHAPES: [&str; 57] = [
    "1 atom",
    "2 to 130 atoms",
    "4,096 atoms or more",
    "32,768 atoms",
    "a tier of 1 row",
    "a tier of 2 to 6 rows",
    "a floor of 0",
    "a floor above the tier's rows",
    "64 rows",
    "65 rows",
    "66 rows or more",
    "a meter that begins above 0",
    "a meter past its limit",
    "a capture account of 1 to 40",
    "a sharing account of 1 to 40",
    "an offer without conditions",
    "an offer without outputs",
    "an offer of 16 conditions",
    "an offer of 64 outputs",
    "an offer with both signs of an atom among its outputs",
    "an offer with an atom on both sides",
    "an offer that replaces one row",
    "an offer that replaces several",
    "an offer that evicts",
    "a seeding that evicts",
    "a delivery that evicts",
    "hits are halved",
    "born stays at the greatest number",
    "evicted stays at the greatest number",
    "a search by postings that finds some rows",
    "a search that builds the postings",
    "a search stopped in building the postings",
    "a closing that builds the postings",
    "a closing by postings that were built",
    "a closing that decides 3 atoms or more",
    "a closing that counts fewer hits than it decides atoms",
    "a closing stopped after it counted a hit",
    "a Conflict with nothing decided, and its hit",
    "a closing that decides, and names no output",
    "a closing that names an output",
    "a closing that names by the last of several Requires",
    "a closing that names what is not the least at its end",
    "a Conflict after a Require",
    "a closing stopped after a Require",
    "a deduction of a packed row",
    "a deduction of a scalar row",
    "a cursor inside a group",
    "a seeding that adds rows",
    "a whole seeding that adds none, past its mark",
    "a seeding under the number of another store",
    "a seeding that its account ends",
    "a row in a tier that is beyond its limits",
    "a delivery that adds rows",
    "a delivery that adds none, from rows",
    "a delivery that its account ends",
    "a store that was seeded itself",
    "a tier that was delivered to",
];

/// All shapes: those of Requires, of many atoms and of sources behind the others.
const ALL_SHAPES: usize =
    SHAPES.len() + contradicted::SHAPES.len() + distant::SHAPES.len() + sources::SHAPES.len();

/// The counts: by operation and ending, and by shape.
pub struct Counts {
    endings: [[u64; MOST_ENDINGS]; OPERATIONS],
    shapes: [u64; ALL_SHAPES],
}

impl Default for Counts {
    fn default() -> Self {
        Self {
            endings: Default::default(),
            shapes: [0; ALL_SHAPES],
        }
    }
}

/// The names of all shapes.
fn shape_names() -> impl Iterator<Item = &'static str> {
    let first = SHAPES.into_iter().chain(contradicted::SHAPES);
    first.chain(distant::SHAPES).chain(sources::SHAPES)
}

/// The shapes of a call.
#[derive(Default)]
struct Shapes(Vec<&'static str>);

impl Shapes {
    fn note(&mut self, has: bool, shape: &'static str) {
        if has {
            self.0.push(shape);
        }
    }

    fn of_meter(&mut self, meter: Meter) {
        self.note(meter.charged > 0, "a meter that begins above 0");
        self.note(meter.charged > meter.limit, "a meter past its limit");
    }

    fn of_ledger(&mut self, ledger: &Ledger) {
        let limits = ledger.limits();
        let (atoms, tier_rows, floor) = (limits.atoms, limits.tier_rows, limits.founded_floor);
        let rows = ledger.rows();
        self.note(atoms == 1, "1 atom");
        self.note((2..=130).contains(&atoms), "2 to 130 atoms");
        self.note(atoms >= 4_096, "4,096 atoms or more");
        self.note(atoms == 32_768, "32,768 atoms");
        self.note(tier_rows == 1, "a tier of 1 row");
        self.note((2..=6).contains(&tier_rows), "a tier of 2 to 6 rows");
        self.note(floor == 0, "a floor of 0");
        self.note(floor > tier_rows, "a floor above the tier's rows");
        self.note(rows == 64, "64 rows");
        self.note(rows == 65, "65 rows");
        self.note(rows >= 66, "66 rows or more");
    }

    fn of_row(&mut self, conditions: &[u64], outputs: &[u64]) {
        self.note(conditions.is_empty(), "an offer without conditions");
        self.note(outputs.is_empty(), "an offer without outputs");
        self.note(conditions.len() == 16, "an offer of 16 conditions");
        self.note(outputs.len() == 64, "an offer of 64 outputs");
        let signs = outputs.windows(2).any(|pair| pair[0] / 2 == pair[1] / 2);
        self.note(
            signs,
            "an offer with both signs of an atom among its outputs",
        );
        let atom = |code: &u64| outputs.iter().any(|other| other / 2 == code / 2);
        let sides = conditions.iter().any(atom);
        self.note(sides, "an offer with an atom on both sides");
    }

    /// An offer that was Added.
    fn of_retention(&mut self, (before, after): (Header, Header)) {
        let evicts = after.evicted > before.evicted;
        let stays = after.rows == before.rows;
        let most = before.evicted == u64::MAX;
        self.note(stays && !evicts && !most, "an offer that replaces one row");
        self.note(after.rows < before.rows, "an offer that replaces several");
        self.note(evicts, "an offer that evicts");
        self.note(after.epoch == 0, "hits are halved");
        self.note(before.born == u64::MAX, "born stays at the greatest number");
        self.note(most && stays, "evicted stays at the greatest number");
    }

    fn of_search(&mut self, made: &Made, (before, after): (Header, Header)) {
        let found = made.answer == Answer::Found && made.charge > 0;
        self.note(found, "a search by postings that finds some rows");
        let builds = before.stale && !after.stale;
        self.note(builds, "a search that builds the postings");
        let stopped = made.answer == Answer::Stopped && after.stale && made.charge > 0;
        self.note(stopped, "a search stopped in building the postings");
    }

    fn of_closing(&mut self, made: &Made, (before, after): (Header, Header)) {
        let builds = before.stale && !after.stale;
        self.note(builds, "a closing that builds the postings");
        self.note(!before.stale, "a closing by postings that were built");
        self.note(made.decided >= 3, "a closing that decides 3 atoms or more");
        let decided = u64::from(made.decided);
        let fewer = made.hits > 0 && made.hits < decided;
        self.note(
            fewer,
            "a closing that counts fewer hits than it decides atoms",
        );
        let stopped = made.answer == Answer::Stopped && made.hits > 0;
        self.note(stopped, "a closing stopped after it counted a hit");
        let against = made.answer == Answer::Conflict && decided == 0 && made.hits == 1;
        self.note(against, "a Conflict with nothing decided, and its hit");
        self.of_naming(made);
    }

    /// The output that a closing names, or none.
    fn of_naming(&mut self, made: &Made) {
        let Told { requires, late } = &made.told;
        let named = made.told.named();
        let none = named.is_none() && made.decided > 0;
        self.note(none, "a closing that decides, and names no output");
        self.note(named.is_some(), "a closing that names an output");
        let last = requires.first().map(Require::named) != named;
        self.note(last, "a closing that names by the last of several Requires");
        let earlier = late.first().copied() != named;
        self.note(
            earlier,
            "a closing that names what is not the least at its end",
        );
        let after = |answer: Answer| named.is_some() && made.answer == answer;
        self.note(after(Answer::Conflict), "a Conflict after a Require");
        self.note(after(Answer::Stopped), "a closing stopped after a Require");
    }

    /// A Require of a deduction.
    fn of_require(&mut self, require: &Require) {
        let Require {
            outputs,
            packed,
            contradicted,
        } = require;
        let found = contradicted::shapes(outputs, *packed, contradicted);
        for (name, has) in contradicted::SHAPES.into_iter().zip(found) {
            self.note(has, name);
        }
    }

    fn of_seeding(&mut self, made: &Made, tier: (Header, Header), store: (Header, Header)) {
        let added = store.1.seeded > store.0.seeded;
        self.note(added, "a seeding that adds rows");
        let evicts = tier.1.evicted > tier.0.evicted;
        self.note(evicts, "a seeding that evicts");
        let done = made.answer == Answer::Done;
        let mark = tier.0.mark.filter(|mark| mark.0 == store.0.number);
        let past = mark.is_some() && store.0.rows > 0 && done && !added;
        self.note(past, "a whole seeding that adds none, past its mark");
        let other = mark.is_some_and(|mark| mark.1 > store.0.born);
        self.note(other, "a seeding under the number of another store");
        let ended = done && tier.1.sharing == 0 && tier.0.sharing > 0;
        self.note(ended, "a seeding that its account ends");
        let delivered = tier.0.deliveries > 0;
        self.note(delivered, "a tier that was delivered to");
    }

    fn of_delivery(&mut self, made: &Made, tier: (Header, Header), store: (Header, Header)) {
        let added = store.1.deliveries > store.0.deliveries;
        self.note(added, "a delivery that adds rows");
        let evicts = store.1.evicted > store.0.evicted;
        self.note(evicts, "a delivery that evicts");
        let done = made.answer == Answer::Done;
        let none = !added && tier.0.rows > 0 && done;
        self.note(none, "a delivery that adds none, from rows");
        let ended = done && tier.1.sharing == 0 && tier.0.sharing > 0;
        self.note(ended, "a delivery that its account ends");
        let seeded = store.0.mark.is_some();
        self.note(seeded, "a store that was seeded itself");
    }

    /// A ledger that was seeded: a transfer brings rows beyond the receiver's own limits.
    fn of_seeded(&mut self, ledger: &Ledger) {
        let limits = ledger.limits();
        let beyond = |position: usize| {
            let row = ledger.row(position);
            row.conditions.len() as u64 > limits.founded_conditions
                || row.outputs.len() as u64 > limits.founded_outputs
        };
        let any = (0..ledger.rows()).any(beyond);
        self.note(any, "a row in a tier that is beyond its limits");
    }

    /// A call of one or two ledgers, that was not refused.
    fn of_call(&mut self, call: &Call, ledger: &Ledger, made: &Made, tier: (Header, Header)) {
        let store = made.store;
        match call {
            Call::Offer {
                conditions,
                outputs,
                ..
            } => {
                self.of_row(conditions, outputs);
                if let Answer::Added(_) = made.answer {
                    self.of_retention(tier);
                }
            }
            Call::Candidates { .. } => self.of_search(made, tier),
            Call::Close { .. } => self.of_closing(made, tier),
            Call::Deduce { position, .. } => {
                let packed = ledger.row(*position as usize).is_packed();
                self.note(packed, "a deduction of a packed row");
                self.note(!packed, "a deduction of a scalar row");
                made.told
                    .requires
                    .iter()
                    .for_each(|one| self.of_require(one));
            }
            Call::Next { cursor, .. } => {
                self.note(cursor[2] | cursor[3] != 0, "a cursor inside a group");
            }
            Call::Seed { .. } => {
                store
                    .into_iter()
                    .for_each(|store| self.of_seeding(made, tier, store));
                self.of_seeded(ledger);
            }
            Call::Deliver { .. } => {
                store
                    .into_iter()
                    .for_each(|store| self.of_delivery(made, tier, store));
            }
            _ => {}
        }
    }
}

/// The shapes of a call that was not refused; `world` is as it left it.
fn shapes(call: &Call, world: &World, made: &Made) -> Vec<&'static str> {
    let mut shapes = Shapes::default();
    call.meter()
        .into_iter()
        .for_each(|meter| shapes.of_meter(meter));
    let ledger = call
        .places()
        .0
        .and_then(|place| world.ledgers[place].as_ref());
    if let (Some(ledger), Some(change)) = (ledger, made.tier) {
        shapes.of_ledger(ledger);
        let (remaining, sharing) = (change.0.remaining, change.0.sharing);
        shapes.note(
            (1..=40).contains(&remaining),
            "a capture account of 1 to 40",
        );
        shapes.note((1..=40).contains(&sharing), "a sharing account of 1 to 40");
        shapes.of_call(call, ledger, made, change);
    }
    shapes.0
}

impl Counts {
    /// Counts a call; `world` is as it left it.
    pub fn add(&mut self, call: &Call, world: &World, made: &Made) {
        let Some(operation) = call.operation() else {
            return;
        };
        let name = ending(made.answer, made.charge);
        let place = ENDINGS[operation].iter().position(|other| *other == name);
        let place = place.unwrap_or_else(|| panic!("{} ends with {name}", Call::NAMES[operation]));
        self.endings[operation][place] += 1;
        self.note(distant::shapes(call, world, made));
        self.note(sources::shapes(call, world, made));
        if !matches!(made.answer, Answer::Refused(_)) {
            self.note(shapes(call, world, made));
        }
    }

    fn note(&mut self, shapes: Vec<&'static str>) {
        for shape in shapes {
            let place = shape_names().position(|other| other == shape);
            self.shapes[place.expect("a shape that is listed")] += 1;
        }
    }

    pub fn join(&mut self, other: &Self) {
        let mine = self
            .endings
            .as_flattened_mut()
            .iter_mut()
            .chain(&mut self.shapes);
        let theirs = other.endings.as_flattened().iter().chain(&other.shapes);
        mine.zip(theirs).for_each(|(mine, theirs)| *mine += theirs);
    }

    pub fn calls(&self) -> u64 {
        self.endings.as_flattened().iter().sum()
    }

    /// Writes the counts, and gives the number of things that must occur and did not.
    pub fn report(&self) -> usize {
        for (operation, counts) in self.endings.iter().enumerate() {
            let pairs = ENDINGS[operation].iter().zip(counts);
            let parts: Vec<String> = pairs
                .map(|(name, count)| format!("{name} {count}"))
                .collect();
            let calls: u64 = counts.iter().sum();
            let name = Call::NAMES[operation];
            println!("{name:12}{calls:10}: {}", parts.join(", "));
        }
        println!("calls with");
        for (name, count) in shape_names().zip(&self.shapes) {
            println!("  {name:58}{count:10}");
        }
        self.missing()
    }

    fn missing(&self) -> usize {
        let endings = ENDINGS.iter().zip(&self.endings);
        let endings = endings.flat_map(|(names, counts)| &counts[..names.len()]);
        let all = endings.chain(&self.shapes);
        all.filter(|count| **count == 0).count()
    }
}

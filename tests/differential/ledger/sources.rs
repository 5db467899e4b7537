//! The shapes of calls with rows of both sources: which rows are evicted above the floor and under it, what shuts a ledger, which source a
//! row has that joins others, and what is refused.

use oracle::{Answer, Header, Ledger, Row};

use crate::call::{Call, Role, Slice, Wound};
use crate::compare::{Made, World};
use crate::layout::{FOUNDED, SLOT, SOURCE};
use crate::shapes::{Places, chosen};

/// The shapes that must occur.
pub const SHAPES: [&str; 49] = [
    "a Tip evicted under the floor",
    "a Founded row evicted above the floor",
    "a Tip evicted above the floor",
    "a Founded row evicted before a Tip with more hits",
    "a Tip evicted before a Founded row with fewer hits",
    "a Tip evicted of two with the same hits",
    "a Tip evicted of two with the same hits and born",
    "an eviction with the founded count at the floor",
    "an eviction with the founded count one above the floor",
    "an eviction by a Tip",
    "an eviction of a Tip by a Founded row",
    "a Tip that joins a Founded row",
    "a Founded row that joins a Tip",
    "a Tip that replaces a Founded row",
    "a Founded row that replaces a Tip",
    "a row that replaces rows of both sources",
    "the founded count falls without an eviction",
    "the founded count rises without a row more",
    "a Tip subsumed by a Founded row",
    "a Founded row subsumed by a Tip",
    "a Founded row Shut out for want of a Tip",
    "a Tip Shut out for want of a Tip",
    "Shut, though a row would have joined",
    "a full ledger under its floor not Shut, for a Tip",
    "a full ledger of Tips alone not Shut",
    "a full ledger one above its floor not Shut",
    "Shut by attempts or account, with a Tip",
    "a Tip Stopped",
    "a Tip Declined",
    "a Tip Added where there is room",
    "a seeding Declined for want of a Tip",
    "a seeding that evicts a Tip under the floor",
    "a seeding that evicts above the floor",
    "a seeding that adds a Tip",
    "a seeding that turns a Founded row into a Tip",
    "a seeding that turns a Tip into a Founded row",
    "a delivery Declined for want of a Tip",
    "a delivery that evicts a Tip under the floor",
    "a delivery that evicts above the floor",
    "a delivery that adds a Tip",
    "a delivery that turns a Founded row into a Tip",
    "a delivery that turns a Tip into a Founded row",
    "refused by 4, with a source over 1",
    "refused by 11 where the ledger is Shut",
    "refused by 1 or 2, with a source over 1",
    "refused by 3, with a source over 1",
    "refused by 3 for a source word over 1",
    "refused by 3 for another founded count",
    "refused by 3 for the source of an unused slot",
];

/// The places of the first shapes of offers, of a seeding, of a delivery and of refusals.
const STANDING: usize = 11;
const SHUT: usize = 20;
const SEEDING: usize = 30;
const DELIVERY: usize = 36;
const REFUSALS: usize = 42;

/// The names of a call's shapes; `world` is as it left it.
pub fn shapes(call: &Call, world: &World, made: &Made) -> Vec<&'static str> {
    let receiver = call
        .receiver()
        .and_then(|place| world.ledgers[place].as_ref());
    let places = match (made.answer, call, receiver) {
        (Answer::Refused(number), Call::Unfit { call, wounds }, _) => {
            of_wounds(number, call, wounds, world)
        }
        (Answer::Refused(number), ..) => of_refusal(number, call, receiver),
        (_, Call::Offer { source, .. }, Some(ledger)) => of_offer(*source, call, ledger, made),
        (_, Call::Seed { .. } | Call::Deliver { .. }, Some(ledger)) => {
            of_transfer(call, ledger, world, made)
        }
        _ => Vec::new(),
    };
    places.into_iter().map(|place| SHAPES[place]).collect()
}

/// Whether the floor protects the Founded rows.
fn guarded(header: &Header, ledger: &Ledger) -> bool {
    header.founded <= ledger.limits().founded_floor
}

fn is_full(header: &Header, ledger: &Ledger) -> bool {
    header.rows >= ledger.limits().tier_rows
}

/// The rows of a source.
fn of_source(rows: &[Row], source: u64) -> impl Iterator<Item = &Row> {
    rows.iter().filter(move |row| row.source == source)
}

fn of_offer(source: u64, call: &Call, ledger: &Ledger, made: &Made) -> Places {
    let Some((before, after)) = made.tier else {
        return Vec::new();
    };
    // The rows are not at hand where they are many.
    if made.rows.len() as u64 != before.rows {
        return Vec::new();
    }
    let tip = source == 1;
    let shut = of_shut(tip, call, &before, ledger, made);
    let standing = match made.answer {
        Answer::Added(place) if after.evicted > before.evicted => {
            let victim = &made.rows[place as usize];
            of_victim(tip, victim, &before, ledger, &made.rows)
        }
        Answer::Added(_) => of_addition(tip, call, (&before, &after), &made.rows),
        Answer::Subsumed(place) => {
            let other = made.rows[place as usize].source;
            let has = [tip && other == 0, !tip && other == 1];
            chosen(STANDING + 7, has)
        }
        _ => Vec::new(),
    };
    [shut, standing].concat()
}

/// A row that was evicted, of these.
fn of_victim(tip: bool, victim: &Row, before: &Header, ledger: &Ledger, rows: &[Row]) -> Places {
    let guarded = guarded(before, ledger);
    let floor = ledger.limits().founded_floor;
    let was = victim.source == 1;
    let hits = |row: &&Row| row.hits == victim.hits;
    let alike = |row: &&Row| hits(row) && row.born == victim.born;
    chosen(
        0,
        [
            guarded && was,
            !guarded && !was,
            !guarded && was,
            !guarded && !was && of_source(rows, 1).any(|row| row.hits > victim.hits),
            was && of_source(rows, 0).any(|row| row.hits < victim.hits),
            was && of_source(rows, 1).filter(hits).count() > 1,
            was && of_source(rows, 1).filter(alike).count() > 1,
            before.founded == floor && floor > 0,
            before.founded == floor + 1,
            tip,
            was && !tip,
        ],
    )
}

/// A row that was added with no eviction: it joins rows with its conditions, and replaces those that it covers.
fn of_addition(tip: bool, call: &Call, change: (&Header, &Header), rows: &[Row]) -> Places {
    let Call::Offer {
        conditions,
        outputs,
        ..
    } = call
    else {
        return Vec::new();
    };
    let (before, after) = change;
    let among = |few: &[u64], many: &[u64]| few.iter().all(|code| many.contains(code));
    let joined = |row: &&Row| row.conditions == *conditions;
    let covered = |row: &&Row| {
        !joined(row) && among(conditions, &row.conditions) && among(&row.outputs, outputs)
    };
    let joins = |source: u64| of_source(rows, source).any(|row| joined(&row));
    let covers = |source: u64| of_source(rows, source).any(|row| covered(&row));
    let goes = |source: u64| joins(source) || covers(source);
    chosen(
        STANDING,
        [
            tip && joins(0),
            !tip && joins(1),
            tip && covers(0),
            !tip && covers(1),
            goes(0) && goes(1),
            after.founded < before.founded,
            after.founded > before.founded && after.rows <= before.rows,
        ],
    )
}

/// What shuts a ledger, and what does not; the ends of a Tip besides.
fn of_shut(tip: bool, call: &Call, before: &Header, ledger: &Ledger, made: &Made) -> Places {
    let shut = made.answer == Answer::Shut;
    let (full, tips) = (is_full(before, ledger), before.rows - before.founded);
    let guarded = guarded(before, ledger);
    let wants = shut && full && guarded && tips == 0;
    let joins =
        |row: &Row| matches!(call, Call::Offer { conditions, .. } if *conditions == row.conditions);
    let above = before.founded == ledger.limits().founded_floor + 1;
    chosen(
        SHUT,
        [
            wants && !tip,
            wants && tip,
            wants && made.rows.iter().any(joins),
            full && !shut && guarded && before.founded > 0,
            full && !shut && guarded && before.founded == 0,
            full && !shut && above && tips == 0,
            shut && tips > 0,
            tip && made.answer == Answer::Stopped,
            tip && made.answer == Answer::Declined,
            tip && matches!(made.answer, Answer::Added(_)) && !full,
        ],
    )
}

/// Whether a transfer that was not stopped and has reads left ended before all was handed over.
fn is_declined(call: &Call, world: &World, made: &Made) -> bool {
    let (Some((_, tier)), Some((_, store))) = (made.tier, made.store) else {
        return false;
    };
    if made.answer != Answer::Done || tier.sharing == 0 {
        return false;
    }
    let Call::Deliver { tier: place, .. } = call else {
        return tier.mark != Some((store.number, store.born));
    };
    let Some(giver) = &world.ledgers[*place] else {
        return false;
    };
    let limits = giver.limits();
    let mut rows = (0..giver.rows()).map(|position| giver.row(position));
    rows.any(|row| {
        let few = row.conditions.len() as u64 <= limits.share_conditions;
        (!row.delivered || row.unshared > 0) && (few || row.hits >= limits.share_hits)
    })
}

fn of_transfer(call: &Call, ledger: &Ledger, world: &World, made: &Made) -> Places {
    let seeds = matches!(call, Call::Seed { .. });
    let (first, change) = if seeds {
        (SEEDING, made.tier)
    } else {
        (DELIVERY, made.store)
    };
    let (Some((before, after)), Some((store, stored))) = (change, made.store) else {
        return Vec::new();
    };
    let moved = stored.seeded.wrapping_add(stored.deliveries)
        != store.seeded.wrapping_add(store.deliveries);
    let evicted = after.evicted.wrapping_sub(before.evicted);
    // One row came, and one went: the floor was as before the call.
    let one = evicted == 1 && after.born.wrapping_sub(before.born) == 1;
    let fell = (0..ledger.rows()).any(|position| {
        let row = ledger.row(position);
        row.source == 1 && row.born > before.born
    });
    let protected =
        is_full(&after, ledger) && guarded(&after, ledger) && after.founded == after.rows;
    let tips = |header: &Header| header.rows - header.founded;
    chosen(
        first,
        [
            protected && is_declined(call, world, made),
            one && guarded(&before, ledger),
            one && !guarded(&before, ledger),
            moved && fell,
            moved && evicted == 0 && after.founded < before.founded,
            moved && evicted == 0 && tips(&after) < tips(&before),
        ],
    )
}

fn of_refusal(number: u64, call: &Call, ledger: Option<&Ledger>) -> Places {
    let (Call::Offer { source, .. }, Some(ledger)) = (call, ledger) else {
        return Vec::new();
    };
    let header = ledger.header();
    let full = is_full(&header, ledger) && guarded(&header, ledger);
    let shut = full && header.founded == header.rows;
    let over = *source > 1;
    chosen(REFUSALS, [number == 4 && over, number == 11 && shut])
}

/// A call that was lent unfit words; of a single wound it is known what is refused.
fn of_wounds(number: u64, call: &Call, wounds: &[Wound], world: &World) -> Places {
    let over = matches!(call, Call::Offer { source, .. } if *source > 1);
    let single = match wounds {
        [wound] if number == 3 => Some(*wound),
        _ => None,
    };
    let (mut word_over, mut unused) = (false, false);
    if let Some(Wound::Word {
        slice: Slice::Slots(role),
        index,
        word,
    }) = single
    {
        let (tier, store) = call.places();
        let place = if role == Role::Tier { tier } else { store };
        let ledger = place.and_then(|place| world.ledgers[place].as_ref());
        let rows = ledger.map_or(0, Ledger::rows);
        let source = index % SLOT == SOURCE;
        word_over = source && word > 1 && index / SLOT < rows;
        unused = source && word == 1 && index / SLOT >= rows;
    }
    let counted = matches!(single, Some(Wound::Head { index, .. }) if index == FOUNDED);
    let third = number == 3;
    let over = [over && !third, over && third];
    [
        chosen(REFUSALS + 2, over),
        chosen(REFUSALS + 4, [word_over, counted, unused]),
    ]
    .concat()
}

//! Document 01's cards of eviction and of postings, and a seeding and a delivery, each stopped at every limit; the offers and the transfers
//! also with every account up to their charge.

use oracle::{Answer, Limits};

use crate::Writer;
use crate::call::{Call, Meter};
use crate::closings::{AMPLE, chain, limits, tried};

/// Rows, conditions and outputs, that are offered in turn.
type Rows<'a> = &'a [(&'a [u64], &'a [u64])];

/// A floor, and the rows offered to a tier of 2 rows over 128 atoms: an eviction, a shut ledger, a row that grows, one that is
/// subsumed, one that replaces two.
const OFFERS: [(u64, Rows<'_>); 5] = [
    (1, &[(&[1], &[140]), (&[3], &[142]), (&[5], &[144])]),
    (2, &[(&[1], &[140]), (&[3], &[142]), (&[5], &[144])]),
    (1, &[(&[7], &[140]), (&[7], &[142])]),
    (1, &[(&[7], &[140]), (&[7, 9], &[140])]),
    (
        1,
        &[(&[1, 3], &[140]), (&[1, 5], &[140]), (&[1], &[140, 142])],
    ),
];

/// What the last of the offers ticks, if nothing stops it and no account ends.
fn charge(limits: Limits, rows: Rows<'_>) -> u64 {
    let mut ledger = oracle::ledger::make(limits, 1).expect("limits in their ranges");
    let ends = rows.iter().map(|row| ledger.offer(row.0, row.1, 0, AMPLE));
    ends.last().map_or(0, |done| done.charge)
}

/// The offers to a fresh ledger, the last one with a limit.
fn offer_all(writer: &mut Writer, limits: Limits, rows: Rows<'_>, stop: u64) {
    writer.make(0, limits);
    for (number, row) in rows.iter().enumerate() {
        let last = number + 1 == rows.len();
        writer.offer(row.0, row.1, if last { stop } else { AMPLE });
    }
}

fn offers(writer: &mut Writer, floor: u64, rows: Rows<'_>) {
    let limits = Limits {
        founded_floor: floor,
        ..limits(128, 2)
    };
    let charge = charge(limits, rows);
    (0..=charge).for_each(|stop| offer_all(writer, limits, rows, stop));
    let paying = |founded_work: u64| Limits {
        founded_work,
        ..limits
    };
    (0..=charge + 2).for_each(|work| offer_all(writer, paying(work), rows, AMPLE));
    writer.reset();
}

/// A search of 65 rows whose postings are stale, and of the same when they are built.
fn searches(writer: &mut Writer) {
    chain(writer, 65);
    writer.renew();
    writer.search(1, AMPLE, &[]);
    let mut ledger = writer.ledgers[1].clone().expect("ledger 1 is made");
    let found = ledger.candidates(&[3, 64, 500], AMPLE);
    assert_eq!(found.answer, Answer::Found);
    // The first that is not stopped builds them.
    for stop in tried(found.charge).chain(0..12) {
        writer.search(1, stop, &[3, 64, 500]);
    }
    writer.reset();
}

/// A ledger of three rows with hits, one of them with an atom on both sides; and one that has a row more general.
fn two_ledgers(writer: &mut Writer) {
    writer.make(0, limits(128, 4));
    writer.offer(&[1], &[140], AMPLE);
    writer.offer(&[3, 5], &[4, 142], AMPLE);
    writer.offer(&[7], &[144], AMPLE);
    writer.call(&Call::Hit {
        place: 0,
        position: 1,
    });
    writer.call(&Call::Hit {
        place: 0,
        position: 1,
    });
    writer.make(1, limits(128, 2));
    writer.call(&Call::Deliver {
        tier: 0,
        store: 1,
        meter: Meter::fresh(3),
    });
}

/// A fresh ledger with room for 2 rows.
fn renew(writer: &mut Writer, place: usize, share_work: u64) {
    let limits = Limits {
        share_work,
        share_conditions: 1,
        ..limits(128, 2)
    };
    writer.make(place, limits);
}

fn seed(writer: &mut Writer, limit: u64) {
    writer.call(&Call::Seed {
        tier: 2,
        store: 0,
        meter: Meter::fresh(limit),
    });
}

fn deliver(writer: &mut Writer, limit: u64) {
    writer.call(&Call::Deliver {
        tier: 2,
        store: 3,
        meter: Meter::fresh(limit),
    });
}

/// Seedings into an empty tier of 2 rows, which evict.
fn seedings(writer: &mut Writer) {
    for stop in 0..60 {
        renew(writer, 2, AMPLE);
        seed(writer, stop);
        renew(writer, 2, stop);
        seed(writer, AMPLE);
    }
}

/// Deliveries of what was hit since a seeding, and then of the rest.
fn deliveries(writer: &mut Writer) {
    for stop in 0..30 {
        renew(writer, 2, AMPLE);
        seed(writer, AMPLE);
        [0, 1]
            .into_iter()
            .for_each(|position| writer.call(&Call::Hit { place: 2, position }));
        renew(writer, 3, AMPLE);
        deliver(writer, stop);
        deliver(writer, AMPLE);
    }
}

pub fn write(writer: &mut Writer) {
    for (floor, rows) in OFFERS {
        writer.line(format_args!("\n# Offers to a tier of 2 rows with floor {floor}, the last at every limit, then with every account."));
        offers(writer, floor, rows);
    }
    writer.line("\n# Searches of 65 rows at every limit.");
    searches(writer);
    writer.line("\n# Transfers at every limit and with every account.");
    two_ledgers(writer);
    seedings(writer);
    deliveries(writer);
    writer.reset();
}

//! Rows of both sources (document 02, Eight): offers to tiers at and around their floors, stopped at every limit and with every account; a
//! seeding and a delivery of both, the same; and random parts.

use oracle::Limits;

use crate::Writer;
use crate::call::{Call, Meter};
use crate::closings::{AMPLE, limits};

/// The sources.
const FOUNDED: u64 = 0;
const TIP: u64 = 1;

/// A row: conditions, outputs, source.
type Row<'a> = (&'a [u64], &'a [u64], u64);

const ONE: Row<'_> = (&[1], &[140], FOUNDED);
const TWO: Row<'_> = (&[3], &[142], FOUNDED);
const TIP_ONE: Row<'_> = (&[1], &[140], TIP);
const TIP_TWO: Row<'_> = (&[3], &[142], TIP);

/// What the rows are about, a floor, and the rows offered to a tier of 2 rows over 128 atoms.
const OFFERS: [(&str, u64, &[Row<'_>]); 9] = [
    (
        "a Tip goes, under the floor",
        1,
        &[ONE, TIP_TWO, (&[5], &[144], FOUNDED)],
    ),
    (
        "a Tip goes for a Tip",
        64,
        &[TIP_ONE, TIP_TWO, (&[5], &[144], TIP)],
    ),
    (
        "a Founded row goes, above the floor",
        0,
        &[ONE, TIP_TWO, (&[5], &[144], TIP)],
    ),
    (
        "a Tip is shut out, though it would join",
        2,
        &[ONE, TWO, (&[1], &[144], TIP)],
    ),
    ("a Tip joins a Founded row", 1, &[ONE, (&[1], &[142], TIP)]),
    (
        "a Founded row joins a Tip",
        1,
        &[TIP_ONE, (&[1], &[142], FOUNDED)],
    ),
    (
        "a Tip is subsumed by a Founded row",
        1,
        &[ONE, (&[1, 3], &[140], TIP)],
    ),
    (
        "a Founded row is subsumed by a Tip",
        1,
        &[TIP_ONE, (&[1, 3], &[140], FOUNDED)],
    ),
    (
        "a Tip replaces rows of both sources",
        1,
        &[
            (&[1, 3], &[140], FOUNDED),
            (&[1, 5], &[140], TIP),
            (&[1], &[140, 142], TIP),
        ],
    ),
];

/// What the last of the offers ticks, if nothing stops it and no account ends.
fn charge(limits: Limits, rows: &[Row<'_>]) -> u64 {
    let mut ledger = oracle::ledger::make(limits, 1).expect("limits in their ranges");
    let offer = |row: &Row<'_>| ledger.offer(row.0, row.1, row.2, AMPLE);
    rows.iter().map(offer).last().map_or(0, |done| done.charge)
}

/// The offers to a fresh ledger, the last one with a limit.
fn offer_all(writer: &mut Writer, limits: Limits, rows: &[Row<'_>], stop: u64) {
    writer.make(0, limits);
    for (number, row) in rows.iter().enumerate() {
        let last = number + 1 == rows.len();
        writer.offer_from(row.0, row.1, row.2, if last { stop } else { AMPLE });
    }
}

fn offers(writer: &mut Writer, floor: u64, rows: &[Row<'_>]) {
    let limits = Limits {
        founded_floor: floor,
        ..limits(128, 2)
    };
    let charge = charge(limits, rows);
    (0..=charge).for_each(|stop| offer_all(writer, limits, rows, stop));
    let spent = rows.len() as u64 * 8;
    for founded_work in 0..=charge + spent {
        let limits = Limits {
            founded_work,
            ..limits
        };
        offer_all(writer, limits, rows, AMPLE);
    }
    writer.reset();
}

/// A tier of 2 rows, one of each source, with this floor and account.
fn receiver(writer: &mut Writer, founded_floor: u64, share_work: u64) {
    let limits = Limits {
        founded_floor,
        share_work,
        ..limits(128, 2)
    };
    writer.make(0, limits);
    [ONE, TIP_TWO]
        .into_iter()
        .for_each(|row| writer.offer_from(row.0, row.1, row.2, AMPLE));
}

/// Ledger 1 has rows of both sources: one joins the tier's first row, one is new, one is subsumed there.
fn giver(writer: &mut Writer) {
    writer.make(1, limits(128, 4));
    let rows: [Row<'_>; 3] = [
        (&[1], &[150], TIP),
        (&[7], &[146], FOUNDED),
        (&[1, 9], &[150], FOUNDED),
    ];
    for (conditions, outputs, source) in rows {
        writer.call(&Call::Offer {
            place: 1,
            meter: Meter::fresh(AMPLE),
            conditions: conditions.to_vec(),
            outputs: outputs.to_vec(),
            source,
        });
    }
    writer.call(&Call::Hit {
        place: 1,
        position: 2,
    });
}

/// Seedings of the tier at every limit and with every account, with floors that protect its Founded row, and that do not.
fn seedings(writer: &mut Writer, floor: u64) {
    for stop in (0..72).step_by(3) {
        for (account, limit) in [(AMPLE, stop), (stop, AMPLE)] {
            receiver(writer, floor, account);
            writer.call(&Call::Seed {
                tier: 0,
                store: 1,
                meter: Meter::fresh(limit),
            });
        }
    }
}

/// Deliveries to the tier at every limit, and the rest of each afterwards.
fn deliveries(writer: &mut Writer, floor: u64) {
    for stop in (0..72).step_by(6) {
        receiver(writer, floor, AMPLE);
        giver(writer);
        for limit in [stop, AMPLE] {
            writer.call(&Call::Deliver {
                tier: 1,
                store: 0,
                meter: Meter::fresh(limit),
            });
        }
    }
}

pub fn write(writer: &mut Writer) {
    for (about, floor, rows) in OFFERS {
        writer.line(format_args!(
            "\n# Tips: {about}; floor {floor}, at every limit, then with every account."
        ));
        offers(writer, floor, rows);
    }
    for floor in [0, 1, 2] {
        writer.line(format_args!("\n# Tips: transfers of both sources to a tier with floor {floor}, at many limits and accounts."));
        giver(writer);
        seedings(writer, floor);
        deliveries(writer, floor);
        writer.reset();
    }
}

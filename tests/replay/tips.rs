//! Rows of both sources (document 02, Eight): which row goes above the floor and under it, what shuts a ledger, which source a row has that
//! joins others or is handed on, and the refusals 11, 4 and 3 of an offer.

use oracle::Record;

use crate::given::{ENDLESS, Entry, Given, entry, header, limits, tip};
use crate::lines::Lines;
use crate::sweeps::{Codes, alone, deliver, offer_from, pair, seed};

/// A row that none of the others has to do with.
const NEW: Codes<'_> = (&[9], &[150]);

/// A ledger of these rows, full, with a floor.
fn full(floor: u64, rows: Vec<Entry>) -> Given {
    Given {
        limits: limits(128, rows.len() as u64, 64, floor),
        header: header(7, 9),
        rows,
    }
}

/// Three rows: Founded, Tip, Tip, each with its hits and born.
fn three(counts: [(u64, u64); 3]) -> Vec<Entry> {
    let [first, second, third] = counts.map(|(hits, born)| (hits, 1, born, false));
    vec![
        entry(&[1], &[140], first),
        tip(&[3], &[142], second),
        tip(&[5], &[144], third),
    ]
}

/// The choice of a victim, by a row of either source.
fn victims(lines: &mut Lines) {
    let cases: [(&str, u64, [(u64, u64); 3]); 7] = [
        // Under the floor a Tip goes, of several the least (hits, born), of equal ones the first.
        ("under", 1, [(0, 1), (4, 2), (3, 3)]),
        ("under_elder", 1, [(0, 1), (3, 4), (3, 3)]),
        ("under_first", 1, [(0, 1), (3, 4), (3, 4)]),
        ("under_far", 64, [(0, 1), (3, 2), (4, 3)]),
        // Above it any row goes.
        ("above", 0, [(1, 1), (4, 2), (3, 3)]),
        ("above_tip", 0, [(5, 1), (4, 2), (3, 3)]),
        ("above_first", 0, [(3, 4), (3, 4), (3, 4)]),
    ];
    for (about, floor, counts) in cases {
        for source in [0, 1] {
            let about = format!("tips:{about}:{source}");
            let given = full(floor, three(counts));
            lines.call(
                &about,
                &offer_from(NEW, source, ENDLESS),
                &mut alone(&given),
            );
        }
    }
}

/// Being full shuts a ledger exactly if it holds no Tip and no more Founded rows than the floor.
fn shut(lines: &mut Lines) {
    let (one, two) = (
        entry(&[1], &[140], (3, 1, 1, false)),
        entry(&[3], &[142], (2, 1, 2, false)),
    );
    let (tip_one, tip_two) = (
        tip(&[1], &[140], (3, 1, 1, false)),
        tip(&[3], &[142], (2, 1, 2, false)),
    );
    let ledgers = [
        ("founded", vec![one.clone(), two]),
        ("mixed", vec![one, tip_two.clone()]),
        ("tips", vec![tip_one, tip_two]),
    ];
    for (about, rows) in &ledgers {
        for floor in 0..=2 {
            let given = full(floor, rows.clone());
            for source in [0, 1] {
                let about = format!("tips:{about}:floor={floor}:{source}");
                lines.call(
                    &about,
                    &offer_from(NEW, source, ENDLESS),
                    &mut alone(&given),
                );
            }
        }
    }
    let given = full(2, ledgers[0].1.clone());
    let joins = offer_from((&[1], &[150]), 1, ENDLESS);
    lines.call("tips:founded:joins", &joins, &mut alone(&given));
}

/// The other grounds of Shut, with a Tip there and room.
fn spent(lines: &mut Lines) {
    let given = Given {
        limits: limits(128, 3, 64, 1),
        ..full(1, vec![tip(&[1], &[140], (3, 1, 1, false))])
    };
    let ended = given.with(|header| header.attempts = 100);
    lines.call(
        "tips:attempts",
        &offer_from(NEW, 1, ENDLESS),
        &mut alone(&ended),
    );
    let ended = given.with(|header| header.remaining = 0);
    lines.call(
        "tips:account",
        &offer_from(NEW, 1, ENDLESS),
        &mut alone(&ended),
    );
}

/// A row that joins rows, replaces them or is subsumed, of either source on both sides.
fn joined(lines: &mut Lines) {
    let rows: [(&str, Codes<'_>); 4] = [
        ("joins", (&[1, 3], &[142])),
        ("replaces", (&[3], &[140])),
        ("replaces_both", (&[], &[140, 144])),
        ("subsumed", (&[1, 3, 5], &[140])),
    ];
    let makers = [entry, tip];
    for (about, row) in rows {
        for (source, (first, second)) in [(0, (1, 0)), (0, (1, 1)), (1, (0, 1)), (1, (0, 0))] {
            let given = Given {
                limits: limits(128, 3, 64, 1),
                ..full(
                    1,
                    vec![
                        makers[first](&[1, 3], &[140], (4, 2, 1, true)),
                        makers[second](&[5], &[144], (1, 1, 2, false)),
                    ],
                )
            };
            let about = format!("tips:{about}:{first}{second}:{source}");
            lines.call(
                &about,
                &offer_from(row, source, ENDLESS),
                &mut alone(&given),
            );
        }
    }
}

/// A ledger whose first row joins a Founded row of `one_of_each`; the others are new there.
fn giver() -> Given {
    Given {
        limits: limits(128, 3, 64, 0),
        header: header(9, 6),
        rows: vec![
            tip(&[1], &[146], (1, 1, 3, false)),
            entry(&[11], &[152], (6, 2, 5, false)),
            tip(&[13], &[154], (6, 2, 6, false)),
        ],
    }
}

/// A full ledger of a Founded row and a Tip, with a floor.
fn one_of_each(floor: u64) -> Given {
    full(
        floor,
        vec![
            entry(&[1], &[140], (4, 1, 2, true)),
            tip(&[3], &[142], (3, 2, 5, false)),
        ],
    )
}

/// Transfers of rows of both sources to a full ledger.
fn transfers(lines: &mut Lines) {
    for floor in 0..=2 {
        let about = format!("tips:floor={floor}");
        let (given, receiver) = (giver(), one_of_each(floor));
        lines.call(&about, &seed(ENDLESS), &mut pair(&receiver, &given));
        lines.call(&about, &deliver(ENDLESS), &mut pair(&given, &receiver));
    }
}

/// Transfers to a ledger whose rows are all protected: Declined for want of a Tip.
fn protected(lines: &mut Lines) {
    let (mut given, mut receiver) = (giver(), one_of_each(2));
    receiver.rows[1].source = 0;
    lines.call(
        "tips:protected",
        &seed(ENDLESS),
        &mut pair(&receiver, &given),
    );
    // The first was delivered before.
    given.rows[0].record = Record {
        unshared: 0,
        delivered: true,
        ..given.rows[0].record
    };
    lines.call(
        "tips:protected",
        &deliver(ENDLESS),
        &mut pair(&given, &receiver),
    );
}

/// A source over 1 is 11; with an unfit row 4, with contents that are none 3; on a ledger that is shut 11.
fn refusals(lines: &mut Lines) {
    let given = full(1, vec![entry(&[1], &[140], (3, 1, 1, false))]);
    for source in [2, 256, 1 << 32, u64::MAX] {
        let about = format!("tips:source={source}");
        lines.call(
            &about,
            &offer_from(NEW, source, ENDLESS),
            &mut alone(&given),
        );
    }
    let unfit: Codes<'_> = (&[9, 9], &[150]);
    lines.call(
        "tips:unfit",
        &offer_from(unfit, 2, ENDLESS),
        &mut alone(&given),
    );
    let broken = given.with(|header| header.epoch = 1);
    lines.call(
        "tips:contents",
        &offer_from(NEW, 2, ENDLESS),
        &mut alone(&broken),
    );
    lines.call(
        "tips:contents",
        &offer_from(unfit, 2, ENDLESS),
        &mut alone(&broken),
    );
}

pub fn write(lines: &mut Lines) {
    victims(lines);
    shut(lines);
    spent(lines);
    joined(lines);
    transfers(lines);
    protected(lines);
    refusals(lines);
}

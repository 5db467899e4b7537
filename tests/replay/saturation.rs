//! Counts at the greatest word: born, evicted, deliveries and seeded saturate, and so do hits and unshared.

use oracle::Record;

use crate::call::Call;
use crate::given::{ENDLESS, Given, MOST, entry, header, limits};
use crate::lines::Lines;
use crate::sweeps::{Codes, alone, deliver, offer, pair, seed};

/// Offers and hits, on a ledger of two rows and on the first of them alone.
fn rows(lines: &mut Lines, two: &Given, one: &Given) {
    let row: Codes<'_> = (&[5], &[24]);
    let given = one.with(|header| header.born = MOST);
    lines.call("born", &offer(row, ENDLESS), &mut alone(&given));
    let given = two.with(|header| header.evicted = MOST);
    lines.call("evicted", &offer(row, ENDLESS), &mut alone(&given));
    let hit = Call::Hit {
        place: 0,
        position: 0,
    };
    let mut given = one.clone();
    given.rows[0].record.hits = MOST;
    lines.call("hits", &hit, &mut alone(&given));
    given.rows[0].record = Record {
        hits: 4,
        unshared: MOST,
        ..given.rows[0].record
    };
    lines.call("unshared", &hit, &mut alone(&given));
}

/// Transfers of two rows to a ledger of none, where deliveries, seeded or born have this count.
fn transfers(lines: &mut Lines, count: u64, two: &Given, none: &Given) {
    let store = none.with(|header| header.deliveries = count);
    let about = format!("deliveries={count}");
    lines.call(&about, &deliver(ENDLESS), &mut pair(two, &store));
    let store = two.with(|header| header.seeded = count);
    let about = format!("seeded={count}");
    lines.call(&about, &seed(ENDLESS), &mut pair(none, &store));
    let tier = none.with(|header| header.born = count);
    let about = format!("born={count}");
    lines.call(&about, &seed(ENDLESS), &mut pair(&tier, two));
}

pub fn write(lines: &mut Lines) {
    let two = Given {
        limits: limits(70, 2, 8, 0),
        header: header(7, 9),
        rows: vec![
            entry(&[1], &[20], (4, 1, 2, true)),
            entry(&[3], &[22], (3, 2, 5, false)),
        ],
    };
    let one = Given {
        rows: two.rows[..1].to_vec(),
        ..two.clone()
    };
    let none = Given {
        limits: limits(70, 3, 8, 0),
        header: header(9, 6),
        rows: Vec::new(),
    };
    rows(lines, &two, &one);
    for count in [MOST, MOST - 1] {
        transfers(lines, count, &two, &none);
    }
    // 5 hits for a row with all but one.
    let (mut tier, mut store) = (one.clone(), one);
    tier.rows[0].record.unshared = 5;
    store.rows[0].record.hits = MOST - 1;
    lines.call("hits", &deliver(ENDLESS), &mut pair(&tier, &store));
    // A mark at the greatest born passes over all.
    let mut store = two.with(|header| header.born = MOST);
    store.rows[1].record.born = MOST;
    let tier = none.with(|header| header.mark = Some((7, MOST)));
    lines.call("marked", &seed(ENDLESS), &mut pair(&tier, &store));
}

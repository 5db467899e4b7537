//! Calls over many atoms: rows on both sides of atom 32,768, scalar and packed, up to the most atoms. Offers, searches and transfers are
//! lent no region. Deductions and outputs are over as many atoms as the program has room for; it has none for a closing's scratch there.

use oracle::Header;
use oracle::literals::MOST_ATOMS;

use crate::call::{Call, Meter, Region};
use crate::far::{SPAN, TOO_MANY};
use crate::given::{ENDLESS, Given, entry, header, left, limits};
use crate::lines::Lines;
use crate::sweeps::{Codes, alone, deliver, offer, pair, seed};

/// As many atoms as a region of 1,008 words has, for which there is room.
const READ: u64 = 64_512;
/// Rows whose codes are the same in their low 16 bits.
const NEAR: Codes<'_> = (&[7], &[140]);
const AWAY: Codes<'_> = (&[7 + SPAN], &[140 + SPAN]);
const SPLIT: Codes<'_> = (&[7, 7 + SPAN], &[140, 140 + SPAN]);

/// A scalar row and a packed one around atom 32,768, with postings.
fn around(atoms: u64) -> Given {
    Given {
        limits: limits(atoms, 3, 8, 0),
        header: header(7, 9),
        rows: vec![
            entry(
                &[65_533, 65_539],
                &[65_535, 65_537, 2 * atoms - 2],
                (4, 1, 2, true),
            ),
            entry(
                &[65_531, 65_535, 65_537],
                &[65_533, 65_538, 65_539, 65_541],
                (0, 0, 9, false),
            ),
        ],
    }
}

/// Offers to a ledger of rows near and away: what would be the same in 16 bits is not. Over the most atoms also of the last atom, and of
/// codes that are too large; then over as few atoms as have the others, and over 32,768, which have not.
fn offers(lines: &mut Lines) {
    let given = |atoms: u64| Given {
        limits: limits(atoms, 4, 8, 0),
        header: Header {
            stale: true,
            ..header(7, 2)
        },
        rows: vec![
            entry(NEAR.0, NEAR.1, (1, 1, 1, false)),
            entry(SPLIT.0, SPLIT.1, (2, 1, 2, false)),
        ],
    };
    let last = [2 * MOST_ATOMS - 2, 2 * MOST_ATOMS - 1];
    let rows: [(&str, Codes<'_>); 8] = [
        ("away", AWAY),
        ("split", SPLIT),
        ("joins", (&[7], &[140 + SPAN])),
        ("replaces", (&[7 + SPAN], &[140, 140 + SPAN])),
        ("last", (&last[1..], &last)),
        ("beyond", (&[7], &[2 * MOST_ATOMS])),
        ("aliased", (&[7 + (1 << 32)], &[140])),
        ("aliased_output", (&[7], &[140 + (1 << 32)])),
    ];
    for (about, row) in rows {
        let call = offer(row, ENDLESS);
        lines.call(
            &format!("far:{about}"),
            &call,
            &mut alone(&given(MOST_ATOMS)),
        );
    }
    for (about, row) in &rows[..3] {
        let call = offer(*row, ENDLESS);
        let mut books = alone(&given(32_839));
        lines.call(&format!("far:few:{about}"), &call, &mut books);
    }
    let call = offer(AWAY, ENDLESS);
    let mut books = alone(&Given {
        rows: vec![entry(NEAR.0, NEAR.1, (1, 1, 1, false))],
        ..given(32_768)
    });
    lines.call("far:without", &call, &mut books);
}

/// Makes at the bounds.
fn makes(lines: &mut Lines) {
    for atoms in [32_769, MOST_ATOMS, TOO_MANY] {
        let make = Call::Make {
            place: 0,
            limits: limits(atoms, 1, 8, 0),
            number: 7,
        };
        lines.call(&format!("far:{atoms}"), &make, &mut Default::default());
    }
}

/// Deductions and outputs around atom 32,768, one of them stopped.
fn looks(lines: &mut Lines) {
    let books = alone(&around(READ));
    let regions: [(&str, &[u64], &[u64]); 4] = [
        ("forced", &[32_765, 32_766, 32_767, 32_768, 32_769], &[]),
        ("required", &[32_765, 32_767], &[32_766, 32_770]),
        ("required_scalar", &[32_766], &[32_768]),
        ("empty", &[], &[]),
    ];
    for (about, held, cut) in regions {
        let region = Region {
            held: held.to_vec(),
            cut: cut.to_vec(),
        };
        for (position, meter) in [(0, ENDLESS), (1, ENDLESS), (1, left(1))] {
            let about = format!("far:{about}:{position}:{}", meter.limit);
            let deduce = Call::Deduce {
                place: 0,
                meter,
                position,
                region: region.clone(),
            };
            let next = Call::Next {
                place: 0,
                meter,
                position,
                cursor: [0; 4],
                region: region.clone(),
            };
            lines.call(&about, &deduce, &mut books.clone());
            lines.call(&about, &next, &mut books.clone());
        }
    }
}

/// Searches of 65 rows over the most atoms, every 16,001st atom the condition of one: stopped in the rebuild, and whole.
fn searches(lines: &mut Lines) {
    let rows = (0..65).map(|place| {
        let codes = [2 * 16_001 * place + 1, 2 * (MOST_ATOMS - 1 - place)];
        entry(&codes[..1], &codes[1..], (0, 0, place + 1, false))
    });
    let given = Given {
        limits: limits(MOST_ATOMS, 65, 8, 0),
        header: Header {
            stale: true,
            ..header(7, 65)
        },
        rows: rows.collect(),
    };
    let search = |meter: Meter| Call::Candidates {
        place: 0,
        meter,
        atoms: vec![
            48_003,
            16_001,
            MOST_ATOMS - 1,
            64_004,
            MOST_ATOMS,
            16_001 + SPAN,
        ],
    };
    let books = alone(&given);
    lines.call("far:65:left=129", &search(left(129)), &mut books.clone());
    lines.call("far:65", &search(ENDLESS), &mut books.clone());
}

/// A seeding and a delivery of the rows, over the most atoms and over as few as have them; and between ledgers of unlike numbers.
fn transfers(lines: &mut Lines) {
    for atoms in [32_772, MOST_ATOMS] {
        let tier = Given {
            limits: limits(atoms, 3, 8, 0),
            header: header(9, 6),
            rows: vec![entry(&[65_533], &[65_535], (1, 0, 3, false))],
        };
        let about = format!("far:{atoms}");
        lines.call(&about, &seed(ENDLESS), &mut pair(&tier, &around(atoms)));
        lines.call(&about, &deliver(ENDLESS), &mut pair(&around(atoms), &tier));
    }
    let small = Given {
        rows: Vec::new(),
        ..around(32_768)
    };
    let mut books = pair(&small, &around(32_772));
    lines.call("far:unlike", &seed(ENDLESS), &mut books);
}

pub fn write(lines: &mut Lines) {
    makes(lines);
    offers(lines);
    looks(lines);
    searches(lines);
    transfers(lines);
}

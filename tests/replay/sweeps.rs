//! Calls at every value of their account and every limit of their meter, and offers whose whole end tells what a porter would miss.

use oracle::{Header, Record};

use crate::call::{Call, Meter, Region};
use crate::given::{AMPLE, ENDLESS, Given, PAST, entry, header, left, limits};
use crate::lines::{Books, Lines};

/// A row's conditions and outputs.
pub type Codes<'a> = (&'a [u64], &'a [u64]);

/// A ledger alone.
pub fn alone(given: &Given) -> Books {
    Books {
        tier: Some(given.book()),
        store: None,
    }
}

/// A tier and a store.
pub fn pair(tier: &Given, store: &Given) -> Books {
    Books {
        tier: Some(tier.book()),
        store: Some(store.book()),
    }
}

pub fn offer(row: Codes<'_>, meter: Meter) -> Call {
    offer_from(row, 0, meter)
}

/// An offer of a source: 0 for Founded, 1 for a Tip.
pub fn offer_from(row: Codes<'_>, source: u64, meter: Meter) -> Call {
    Call::Offer {
        place: 0,
        meter,
        conditions: row.0.to_vec(),
        outputs: row.1.to_vec(),
        source,
    }
}

pub fn seed(meter: Meter) -> Call {
    Call::Seed {
        tier: 0,
        store: 1,
        meter,
    }
}

pub fn deliver(meter: Meter) -> Call {
    Call::Deliver {
        tier: 0,
        store: 1,
        meter,
    }
}

/// A call at every limit, up to one past its charge, and with a meter past its limit.
fn meters(lines: &mut Lines, about: &str, books: &Books, call: impl Fn(Meter) -> Call) {
    let ample = call(ENDLESS);
    let charge = lines
        .call(&format!("{about}:ample"), &ample, &mut books.clone())
        .charge;
    for ticks in 0..=charge + 1 {
        let about = format!("{about}:left={ticks}");
        lines.call(&about, &call(left(ticks)), &mut books.clone());
    }
    for meter in [
        PAST,
        Meter {
            charged: u64::MAX,
            limit: 0,
        },
    ] {
        let about = format!("{about}:past={}", meter.charged);
        lines.call(&about, &call(meter), &mut books.clone());
    }
}

/// What a call's account has left: of an offer the capture account, else the sharing account of the tier.
fn account(call: &Call, books: &Books) -> u64 {
    let header = books.tier.as_ref().expect("a tier").ledger.header();
    match call {
        Call::Offer { .. } => header.remaining,
        _ => header.sharing,
    }
}

/// The same, and with every account up to one past the charge, and with every account and limit that are used up both.
fn sweep(
    lines: &mut Lines,
    about: &str,
    books: impl Fn(u64) -> Books,
    call: impl Fn(Meter) -> Call,
) {
    meters(lines, about, &books(AMPLE), &call);
    let charge = Lines::dry(&call(ENDLESS), &mut books(AMPLE)).charge;
    for value in 0..=charge + 1 {
        let about = format!("{about}:account={value}");
        let last = lines.call(&about, &call(ENDLESS), &mut books(value)).charge;
        for limit in 0..=last {
            let call = call(Meter::fresh(limit));
            let mut tried = books(value);
            let ticks = Lines::dry(&call, &mut tried).charge;
            if ticks == limit && account(&call, &tried) == 0 {
                lines.call(&format!("{about},left={limit}"), &call, &mut books(value));
            }
        }
    }
}

/// An offer that joins the second row and replaces the third; the first stays. Its addition halves all hits.
fn offers(lines: &mut Lines) {
    let given = Given {
        limits: limits(130, 3, 8, 0),
        header: Header {
            epoch: 2,
            mark: Some((2, 5)),
            ..header(7, 9)
        },
        rows: vec![
            entry(&[5], &[142, 144], (4, 1, 2, true)),
            entry(&[1], &[140, 142], (7, 2, 5, false)),
            entry(&[1, 3], &[140, 144], (1, 0, 9, true)),
        ],
    };
    let books = |account| alone(&given.with(|header| header.remaining = account));
    sweep(lines, "joins", books, |meter| {
        offer((&[1], &[142, 144]), meter)
    });
}

/// A seeding: the first row is passed over by the mark, the second subsumed, the third joins the tier's row. The union is
/// within the tier's outputs, and past the store's.
fn seedings(lines: &mut Lines) {
    let tier = Given {
        limits: limits(130, 2, 3, 0),
        header: Header {
            epoch: 1,
            mark: Some((9, 1)),
            ..header(4, 3)
        },
        rows: vec![entry(&[1], &[140, 142], (5, 1, 2, false))],
    };
    let store = Given {
        limits: limits(130, 3, 1, 0),
        header: Header {
            mark: Some((4, 2)),
            ..header(9, 6)
        },
        rows: vec![
            entry(&[9], &[150], (1, 0, 1, false)),
            entry(&[1, 3], &[140], (2, 1, 3, true)),
            entry(&[1], &[144], (7, 2, 6, false)),
        ],
    };
    let books = |account| pair(&tier.with(|header| header.sharing = account), &store);
    sweep(lines, "three", books, seed);
}

/// A delivery: the first row is subsumed, the second passed over, the third joins a row of the store, the fourth evicts.
/// The union is within the tier's outputs, and past the store's.
fn deliveries(lines: &mut Lines) {
    let tier = Given {
        limits: limits(130, 4, 3, 0),
        header: Header {
            epoch: 3,
            mark: Some((8, 1)),
            ..header(4, 7)
        },
        rows: vec![
            entry(&[7], &[150], (3, 3, 1, false)),
            entry(&[1, 3], &[140], (1, 1, 3, false)),
            entry(&[11], &[158], (6, 5, 4, true)),
            entry(&[13], &[20], (2, 0, 7, false)),
        ],
    };
    let store = Given {
        limits: limits(130, 2, 2, 1),
        header: Header {
            mark: Some((4, 2)),
            ..header(8, 5)
        },
        rows: vec![
            entry(&[7], &[148, 150], (1, 2, 4, false)),
            entry(&[11], &[154, 156], (9, 0, 5, true)),
        ],
    };
    let books = |account| pair(&tier.with(|header| header.sharing = account), &store);
    sweep(lines, "four", books, deliver);
}

/// A scalar row and a packed one, with an atom on both sides, and postings.
fn posted() -> Given {
    Given {
        limits: limits(130, 3, 8, 0),
        header: header(7, 9),
        rows: vec![
            entry(&[7], &[140], (4, 1, 2, true)),
            entry(&[1, 3], &[3, 132, 134], (0, 0, 9, false)),
        ],
    }
}

/// Closings, deductions and outputs of a ledger of few rows with its postings: forced, required, a conflict.
fn looks(lines: &mut Lines) {
    let books = alone(&posted());
    let regions: [(&str, &[u64], &[u64]); 4] = [
        ("forced", &[0, 1, 3], &[]),
        ("required", &[1, 66, 70], &[]),
        ("clashing", &[0, 1, 3, 67], &[5]),
        ("empty", &[], &[]),
    ];
    for (about, held, cut) in regions {
        let region = Region {
            held: held.to_vec(),
            cut: cut.to_vec(),
        };
        meters(lines, about, &books, |meter| Call::Close {
            place: 0,
            meter,
            region: region.clone(),
        });
        for position in 0..2 {
            let about = format!("{about}:{position}");
            meters(lines, &about, &books, |meter| Call::Deduce {
                place: 0,
                meter,
                position,
                region: region.clone(),
            });
            meters(lines, &about, &books, |meter| Call::Next {
                place: 0,
                meter,
                position,
                cursor: [0; 4],
                region: region.clone(),
            });
        }
    }
    lines.call("posted", &Call::Begin { place: 0 }, &mut books.clone());
    meters(lines, "posted", &books, |meter| Call::Candidates {
        place: 0,
        meter,
        atoms: vec![3, 3, 500],
    });
}

/// What a closing is about, its rows, and the atoms held and cut.
type Closing<'a> = (&'a str, &'a [Codes<'a>], Codes<'a>);

/// Closings of ledgers of one or two rows, at every limit.
fn closings(lines: &mut Lines, what: &str, cases: &[Closing<'_>]) {
    for (about, rows, (held, cut)) in cases {
        let rows = rows.iter().enumerate();
        let given = Given {
            limits: limits(128, 2, 8, 0),
            header: header(7, 9),
            rows: rows
                .map(|(born, row)| entry(row.0, row.1, (3, 1, born as u64 + 1, false)))
                .collect(),
        };
        let region = Region {
            held: held.to_vec(),
            cut: cut.to_vec(),
        };
        meters(lines, &format!("{what}:{about}"), &alone(&given), |meter| {
            Call::Close {
                place: 0,
                meter,
                region: region.clone(),
            }
        });
    }
}

/// Closings in which a reading decides two atoms, one of two, one and then against the region, none; and two rows that say the same. Which
/// of them counts a hit is document 02's Two.
fn earned(lines: &mut Lines) {
    let both: Codes<'_> = (&[1], &[140, 142]);
    let cases: [Closing<'_>; 7] = [
        ("packed", &[(&[], &[140, 142])], (&[], &[])),
        ("two", &[both], (&[0], &[])),
        ("one", &[both], (&[0], &[70])),
        ("one_then_against", &[both], (&[0, 71], &[])),
        ("against", &[both], (&[0, 70], &[])),
        ("none", &[both], (&[0], &[70, 71])),
        ("alike", &[(&[1], &[140]), (&[3], &[140])], (&[0, 1], &[])),
    ];
    closings(lines, "earned", &cases);
}

/// Closings that act on Requires: by the one or the other sign of an atom; two in one round and in two; one before a Conflict; a packed row
/// by the first of two outputs; a row by its greater output, of which the lesser is contradicted afterwards. Which output is named is
/// document 02's Six.
fn named(lines: &mut Lines) {
    let (row, packed): (Codes<'_>, Codes<'_>) = ((&[7], &[140]), (&[1, 3], &[140, 142]));
    let (signs, before): (Codes<'_>, Codes<'_>) = ((&[7], &[140, 141]), (&[9], &[7]));
    let cases: [Closing<'_>; 8] = [
        ("absent", &[signs], (&[70], &[])),
        ("present", &[signs], (&[], &[70])),
        ("two", &[row, before], (&[70], &[])),
        ("two_rounds", &[before, row], (&[70], &[])),
        ("conflict", &[row, packed], (&[0, 1, 70], &[])),
        ("packed", &[packed], (&[0, 70, 71], &[])),
        ("late", &[(&[7], &[20, 140]), (&[6], &[21])], (&[70], &[])),
        ("none", &[(&[], &[140])], (&[70], &[])),
    ];
    closings(lines, "named", &cases);
}

/// Deductions of rows of 64 outputs, one in each word and all in one, contradicted at the first, at the last and at several places.
fn wide(lines: &mut Lines) {
    let scalar: Vec<u64> = (0..64).map(|word| 128 * word + 2 + word % 2).collect();
    let packed: Vec<u64> = (0..64).map(|atom| 128 + 2 * atom + atom % 2).collect();
    for (form, outputs) in [("scalar", scalar), ("packed", packed)] {
        let given = Given {
            limits: limits(4_096, 1, 64, 0),
            header: header(7, 9),
            rows: vec![entry(&[1], &outputs, (3, 1, 1, false))],
        };
        let places: [(&str, &[usize]); 3] =
            [("first", &[0]), ("last", &[63]), ("several", &[17, 40, 62])];
        for (about, places) in places {
            let mut region = Region::default();
            for place in places {
                let atoms = match outputs[*place] % 2 {
                    1 => &mut region.cut,
                    _ => &mut region.held,
                };
                atoms.push(outputs[*place] / 2);
            }
            let deduce = Call::Deduce {
                place: 0,
                meter: ENDLESS,
                position: 0,
                region,
            };
            let about = format!("wide:{form}:{about}");
            lines.call(&about, &deduce, &mut alone(&given));
        }
    }
}

/// The errors that a porter would make, and the choice of a victim.
fn porter(lines: &mut Lines) {
    let given = Given {
        limits: limits(128, 3, 64, 0),
        header: Header {
            epoch: 2,
            ..header(7, 5)
        },
        rows: vec![
            entry(&[1], &[140], (4, 1, 2, true)),
            entry(&[], &[142], (3, 2, 5, false)),
        ],
    };
    let mut full = Given {
        limits: limits(128, 2, 64, 0),
        ..given.with(|header| header.epoch = 0)
    };
    let mut offered = |about: &str, given: &Given, row: Codes<'_>| {
        lines.call(about, &offer(row, ENDLESS), &mut alone(given));
    };
    // The second row subsumes the proposal, but not what it has grown to.
    offered("grown", &given, (&[1], &[142]));
    // A row that is subsumed halves no hits, one that is added halves all.
    offered("unhalved", &given, (&[1, 3], &[140]));
    offered("halved", &given, (&[9], &[150]));
    for (row, born) in [(0, 5), (1, 2)] {
        full.rows[row].record = Record {
            hits: 3,
            born,
            ..full.rows[row].record
        };
    }
    // Of equal hits the least born is evicted, of equal borns the first.
    offered("elder", &full, (&[9], &[150]));
    full.rows[1].record.born = 5;
    offered("first", &full, (&[9], &[150]));
    // A floor that protects both.
    full.limits.founded_floor = 2;
    offered("protected", &full, (&[9], &[150]));
}

/// Rows whose groups are 0, 255, 256 and 511: two on either side, 256 apart, and all four on both; scalar with a literal in each, packed
/// with four. A row is written in its form, and has each literal read again if it is packed.
fn groups(lines: &mut Lines) {
    let given = Given {
        limits: limits(32_768, 2, 64, 0),
        header: header(7, 0),
        rows: Vec::new(),
    };
    let sides: [(&str, Codes<'_>); 2] = [
        ("apart", (&[0, 256], &[255, 511])),
        ("all", (&[0, 255, 256, 511], &[0, 255, 256, 511])),
    ];
    for (about, (conditions, outputs)) in sides {
        for literals in [1, 4] {
            let codes = |groups: &[u64]| -> Vec<u64> {
                let codes = |group| (0..literals).map(move |place| 128 * group + 3 * place);
                groups.iter().flat_map(|&group| codes(group)).collect()
            };
            lines.call(
                &format!("groups:{about}:{literals}"),
                &offer((&codes(conditions), &codes(outputs)), ENDLESS),
                &mut alone(&given),
            );
        }
    }
}

/// Transfers to a ledger whose rows are all protected.
fn floors(lines: &mut Lines) {
    let held = Given {
        limits: limits(128, 2, 64, 2),
        header: header(4, 5),
        rows: vec![
            entry(&[1], &[140], (4, 1, 2, true)),
            entry(&[], &[142], (3, 2, 5, false)),
        ],
    };
    let mut other = Given {
        limits: limits(128, 2, 64, 0),
        header: header(9, 6),
        rows: vec![
            entry(&[3], &[142], (1, 1, 3, false)),
            entry(&[9], &[150], (6, 2, 6, false)),
        ],
    };
    // A row is subsumed, one declined by the floor.
    lines.call("floor", &seed(ENDLESS), &mut pair(&held, &other));
    other.rows[0].record = Record {
        unshared: 0,
        delivered: true,
        ..other.rows[0].record
    };
    // A row was delivered before, one is declined by the floor.
    lines.call("floor", &deliver(ENDLESS), &mut pair(&other, &held));
}

pub fn write(lines: &mut Lines) {
    offers(lines);
    seedings(lines);
    deliveries(lines);
    looks(lines);
    earned(lines);
    named(lines);
    wide(lines);
    porter(lines);
    groups(lines);
    floors(lines);
}

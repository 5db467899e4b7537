//! Offers, transfers and searches.

use crate::both::{Both, Offered};
use crate::lent::Lent;
use crate::random::Random;
use crate::rows::{ATOMS, KINDS, ROWS, Row, World};
use crate::timing::{Sides, measure, timed, title};
use zetesis_ferraris::regions::{Tier, metered};

/// Rows offered, delivered and seeded: all but one of a tier, so that nothing is evicted.
const OFFERS: usize = ROWS - 1;
/// Atoms given to a search.
const GIVEN: usize = 64;

/// All rows offered to an empty ledger, one after another. Acceptance: that of the ledger before each offer.
fn offers(name: &str, rows: &[Row]) {
    let start = Both::empty(1);
    let offered: Vec<Offered> = rows.iter().map(Offered::new).collect();
    let left = Both::offered(rows).lent.rows();
    measure(
        &format!("{} offers, {name}, {left} rows left", rows.len()),
        1,
        Sides {
            rust: Box::new(|| {
                let mut tier = start.tier.clone();
                let offer = |row: &Offered| timed(|| row.to(&mut tier));
                offered.iter().map(offer).collect()
            }),
            verified: Box::new(|| {
                let mut lent = start.lent.clone();
                let offer = |row: &Row| timed(|| lent.offer(&row.conditions, &row.outputs));
                rows.iter().map(offer).collect()
            }),
            acceptance: Box::new(|| {
                let mut lent = start.lent.clone();
                let accept = |row: &Row| {
                    let time = timed(|| lent.begin());
                    lent.offer(&row.conditions, &row.outputs);
                    time
                };
                rows.iter().map(accept).collect()
            }),
        },
    );
}

/// The rows of a tier delivered to an empty store, and those of a store seeded into an empty tier.
fn transfers(name: &str, rows: &[Row]) {
    let (full, empty) = (Both::offered(rows), Both::empty(2));
    for delivers in [true, false] {
        let rust = |from: &mut Tier, to: &mut Tier| {
            let mut moved = 0;
            let (result, ticks) = metered(u64::MAX, |work| {
                if delivers {
                    from.deliver(to, &mut moved, work)
                } else {
                    to.seed(from, 1, &mut moved, work)
                }
            });
            result.expect("the meter does not run out");
            (moved, ticks)
        };
        let verified = |from: &mut Lent, to: &mut Lent| {
            if delivers {
                from.deliver(to)
            } else {
                to.seed(from)
            }
        };
        let (mut from, mut to) = (full.clone(), empty.clone());
        let (moved, ticks) = rust(&mut from.tier, &mut to.tier);
        let answer = verified(&mut from.lent, &mut to.lent);
        assert_eq!(
            (answer, to.lent.rows()),
            ([0, 0, ticks, 0], moved),
            "a transfer"
        );
        let what = if delivers { "delivery" } else { "seeding" };
        measure(
            &format!("{what} of {} rows, {name}", rows.len()),
            1,
            Sides {
                rust: Box::new(|| {
                    let (mut from, mut to) = (full.tier.clone(), empty.tier.clone());
                    vec![timed(|| rust(&mut from, &mut to))]
                }),
                verified: Box::new(|| {
                    let (mut from, mut to) = (full.lent.clone(), empty.lent.clone());
                    vec![timed(|| verified(&mut from, &mut to))]
                }),
                acceptance: Box::new(|| {
                    let (mut from, mut to) = (full.lent.clone(), empty.lent.clone());
                    vec![timed(|| (from.begin(), to.begin()))]
                }),
            },
        );
    }
}

/// The candidates for some atoms, with the postings built and unbuilt.
fn searches(name: &str, rows: &[Row]) {
    let mut random = Random(7);
    let mut atoms: Vec<u64> = (0..GIVEN).map(|_| random.below(ATOMS)).collect();
    atoms.sort_unstable();
    let places: Vec<usize> = atoms.iter().map(|&atom| atom as usize).collect();
    let mut unbuilt = Both::offered(rows);
    unbuilt.narrow();
    let (mut found, mut positions) = (vec![0; ROWS], Vec::new());
    let mut built = unbuilt.clone();
    let answer = built.lent.candidates(&atoms, &mut found);
    let (_, ticks) = metered(u64::MAX, |work| {
        built.tier.candidates_into(&places, &mut positions, work)
    });
    let expected = [0, positions.len() as u64, ticks, 0];
    assert_eq!(answer, expected, "a search");
    assert!(
        positions
            .iter()
            .map(|&row| row as u64)
            .eq(found[..positions.len()].iter().copied())
    );
    for (state, start) in [("built", &built), ("unbuilt", &unbuilt)] {
        let (mut checked, mut searched) = (start.clone(), start.clone());
        let mut tier = start.tier.clone();
        measure(
            &format!("candidates for {GIVEN} atoms, {name}, {state}"),
            1,
            Sides {
                rust: Box::new(|| {
                    tier.set_fields(start.tier.fields());
                    let search = || {
                        metered(u64::MAX, |work| {
                            tier.candidates_into(&places, &mut positions, work)
                        })
                    };
                    vec![timed(search)]
                }),
                verified: Box::new(|| {
                    searched.lent.0.head = start.lent.0.head;
                    searched
                        .lent
                        .0
                        .postings
                        .copy_from_slice(&start.lent.0.postings);
                    vec![timed(|| searched.lent.candidates(&atoms, &mut found))]
                }),
                acceptance: Box::new(|| {
                    checked.lent.0.head = start.lent.0.head;
                    vec![timed(|| checked.lent.begin())]
                }),
            },
        );
    }
}

pub fn operations() {
    title("operations");
    for kind in KINDS {
        offers(kind.name, &World::new(kind, 3).rows[..OFFERS]);
    }
    offers("joining", &World::joining(5).rows[..OFFERS]);
    for kind in KINDS {
        transfers(kind.name, &World::new(kind, 3).rows[..OFFERS]);
    }
    for kind in KINDS {
        searches(kind.name, &World::new(kind, 3).rows);
    }
}

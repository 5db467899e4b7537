//! The shapes of calls over many atoms: rows on both sides of 32,768 and of 65,536, what is decided and found there, and what is refused at
//! the bounds.

use oracle::literals::{MOST_ATOMS, is_row};
use oracle::{Answer, Ledger, Limits};

use crate::call::{Call, Wound};
use crate::compare::{Made, World};
use crate::far::{HALF, PLACES, SPAN, TOO_MANY, alike, splits};
use crate::shapes::{Places, chosen};

/// The shapes that must occur.
pub const SHAPES: [&str; 38] = [
    "32,769 to 65,536 atoms",
    "65,537 atoms or more",
    "1,048,576 atoms",
    "an offer of a scalar row on both sides of 32,768",
    "an offer of a packed row on both sides of 32,768",
    "an offer of a scalar row on both sides of 65,536",
    "an offer of a packed row on both sides of 65,536",
    "an offer of two codes with the same low 16 bits",
    "a deduction of a scalar row on both sides of 32,768",
    "a deduction of a packed row on both sides of 32,768",
    "a deduction of a scalar row on both sides of 65,536",
    "a deduction of a packed row on both sides of 65,536",
    "a Require of an atom at 32,768 or above",
    "an output at 32,768 or above",
    "a decision of an atom at 32,768 or above",
    "a search by postings that finds rows at 32,768 or above",
    "a closing that decides an atom at 32,768 or above",
    "a closing that decides an atom at 65,536 or above",
    "a closing by postings that decides one at 32,768 or above",
    "a closing over 1,048,576 atoms that decides one so",
    "a seeding of rows at 32,768 or above",
    "a delivery of rows at 32,768 or above",
    "a Make refused by 1 at 1,048,577 atoms",
    "a header refused by 1 at 1,048,577 atoms",
    "refused by 4 for the code 2 * A, above 32,768 atoms",
    "refused by 4 for a code whose low 16 bits are fit",
    "refused by 4 for a code whose low 32 bits are fit",
    "a Decide refused by 6 at 1,048,577 atoms",
    "an offer with atom 0 as a condition and as an output",
    "an offer with atom 63 as a condition and as an output",
    "an offer with atom 64 as a condition and as an output",
    "an offer with atom 32,767 as a condition and as an output",
    "an offer with atom 32,768 as a condition and as an output",
    "an offer with atom 32,769 as a condition and as an output",
    "an offer with atom 65,535 as a condition and as an output",
    "an offer with atom 65,536 as a condition and as an output",
    "an offer with atom 200,000 as a condition and as an output",
    "an offer with atom 1,048,575 as a condition and an output",
];

/// The names of a call's shapes; `world` is as it left it.
pub fn shapes(call: &Call, world: &World, made: &Made) -> Vec<&'static str> {
    let ledger = |place: Option<usize>| place.and_then(|place| world.ledgers[place].as_ref());
    let (tier, store) = call.places();
    let places = match (made.answer, call, ledger(tier)) {
        (Answer::Refused(number), ..) => of_refusal(number, call, ledger(tier)),
        (_, Call::Decide { .. }, _) => chosen(14, [far(made.highest, HALF)]),
        (_, _, Some(tier)) if tier.atoms() > HALF => {
            let receiver = match call {
                Call::Deliver { .. } => ledger(store),
                _ => Some(tier),
            };
            let atoms = of_atoms(tier.atoms());
            [atoms, of_call(call, tier, receiver, made)].concat()
        }
        _ => Vec::new(),
    };
    places.into_iter().map(|place| SHAPES[place]).collect()
}

/// Whether there is an atom, at a bound or above.
fn far(atom: Option<u64>, bound: u64) -> bool {
    atom.is_some_and(|atom| atom >= bound)
}

fn of_atoms(atoms: u64) -> Places {
    chosen(0, [atoms <= SPAN, atoms > SPAN, atoms == MOST_ATOMS])
}

/// Document 01's form of a row: packed if 3 * groups < 2 * literals.
fn packs(conditions: &[u64], outputs: &[u64]) -> bool {
    let groups = |codes: &[u64]| {
        codes
            .chunk_by(|left, right| left / 128 == right / 128)
            .count()
    };
    3 * (groups(conditions) + groups(outputs)) < 2 * (conditions.len() + outputs.len())
}

/// The four shapes of a row on both sides, from a place on.
fn of_row(first: usize, conditions: &[u64], outputs: &[u64]) -> Places {
    let packed = packs(conditions, outputs);
    let codes = [conditions, outputs].concat();
    let (half, span) = (splits(&codes, HALF), splits(&codes, SPAN));
    chosen(
        first,
        [
            half && !packed,
            half && packed,
            span && !packed,
            span && packed,
        ],
    )
}

fn of_offer(conditions: &[u64], outputs: &[u64]) -> Places {
    let both = alike(&[conditions, outputs].concat());
    let has = |codes: &[u64], atom: u64| codes.iter().any(|code| code / 2 == atom);
    let placed = PLACES.map(|atom| has(conditions, atom) && has(outputs, atom));
    let forms = of_row(3, conditions, outputs);
    [forms, chosen(7, [both]), chosen(28, placed)].concat()
}

/// A call that was not refused, of a ledger over more than 32,768 atoms; in a transfer there is a ledger that received rows.
fn of_call(call: &Call, ledger: &Ledger, receiver: Option<&Ledger>, made: &Made) -> Places {
    match call {
        Call::Offer {
            conditions,
            outputs,
            ..
        } => of_offer(conditions, outputs),
        Call::Deduce { position, .. } => {
            let row = ledger.row(*position as usize);
            let required = match made.answer {
                Answer::Require { required, .. } => Some(required / 2),
                _ => None,
            };
            let requires = chosen(12, [far(required, HALF)]);
            [of_row(8, &row.conditions, &row.outputs), requires].concat()
        }
        Call::Next { .. } => {
            let output = matches!(made.answer, Answer::Output(_)).then_some(made.value / 2);
            chosen(13, [far(output, HALF)])
        }
        Call::Candidates { atoms, .. } => {
            let there = atoms.iter().all(|atom| *atom >= HALF);
            let found = made.answer == Answer::Found && made.value > 0 && made.charge > 0;
            chosen(15, [there && found])
        }
        Call::Close { .. } => of_closing(ledger.atoms(), made),
        Call::Seed { .. } | Call::Deliver { .. } => of_transfer(call, receiver, made),
        _ => Vec::new(),
    }
}

fn of_closing(atoms: u64, made: &Made) -> Places {
    let built = made.tier.is_some_and(|(_, after)| !after.stale);
    let (half, span) = (far(made.highest, HALF), far(made.highest, SPAN));
    chosen(16, [half, span, half && built, half && atoms == MOST_ATOMS])
}

/// A transfer that added rows, where the ledger that received them has one there.
fn of_transfer(call: &Call, receiver: Option<&Ledger>, made: &Made) -> Places {
    let moved = made.store.is_some_and(|(before, after)| {
        (after.seeded, after.deliveries) != (before.seeded, before.deliveries)
    });
    let high = |ledger: &Ledger| {
        let rows = (0..ledger.rows()).map(|position| ledger.row(position));
        rows.into_iter().any(|row| {
            let mut codes = row.conditions.iter().chain(&row.outputs);
            codes.any(|code| code / 2 >= HALF)
        })
    };
    let far = moved && receiver.is_some_and(high);
    let seeds = matches!(call, Call::Seed { .. });
    chosen(20, [far && seeds, far && !seeds])
}

fn of_refusal(number: u64, call: &Call, ledger: Option<&Ledger>) -> Places {
    match (number, call) {
        (1, Call::Make { limits, .. }) => {
            let fits = Limits {
                atoms: 1,
                ..*limits
            }
            .in_range();
            chosen(22, [limits.atoms == TOO_MANY && fits])
        }
        (1, Call::Unfit { wounds, .. }) => {
            let wide = |wound: &Wound| matches!(wound, Wound::Head { index: 0, word, .. } if *word == TOO_MANY);
            chosen(23, [wounds.iter().any(wide)])
        }
        (
            4,
            Call::Offer {
                conditions,
                outputs,
                ..
            },
        ) => ledger.map_or(Vec::new(), |ledger| of_codes(conditions, outputs, ledger)),
        (6, Call::Decide { atoms, .. }) => chosen(27, [*atoms == TOO_MANY]),
        _ => Vec::new(),
    }
}

/// Codes that are no row of the ledger's: at the bound, or such as would be one if a part of their bits alone counted.
fn of_codes(conditions: &[u64], outputs: &[u64], ledger: &Ledger) -> Places {
    let limits = ledger.limits();
    let most = (limits.founded_conditions, limits.founded_outputs);
    let low = |bits: u64| {
        let cut = |codes: &[u64]| -> Vec<u64> { codes.iter().map(|code| code % bits).collect() };
        is_row(limits.atoms, most, &cut(conditions), &cut(outputs))
    };
    let bound = 2 * limits.atoms;
    let at = conditions.contains(&bound) || outputs.contains(&bound);
    chosen(24, [at && limits.atoms > HALF, low(SPAN), low(1 << 32)])
}

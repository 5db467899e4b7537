//! One closing of many rounds over few and over many atoms: what a round costs where the atoms are many and it reads and decides few.

use crate::both::Both;
use crate::closing::Scratch;
use crate::rows::{ROWS, Row};
use crate::timing::{Sides, measure, timed, title};
use zetesis_algebra::region::Region;

/// Over 128 atoms there are fewer rounds: each but the last decides an atom.
const ATOMS: [u64; 5] = [128, 4_096, 32_768, 200_000, 1_048_576];
const LONGEST: u64 = 254;

/// Rows over the last atoms, each of which requires no more than the one after it gives: position p is read before p + 1 in a
/// round, so that every round but the last decides one atom, the one below that of the round before.
fn chain(atoms: u64, rows: u64) -> Vec<Row> {
    let held = |atom: u64| 2 * atom + 1;
    let first = atoms - rows - 1;
    let row = |position| Row {
        conditions: vec![held(first + position + 1)],
        outputs: vec![held(first + position)],
    };
    (0..rows).map(row).collect()
}

fn region(atoms: u64) -> Region {
    let mut region = Region::all_open(atoms as usize);
    region.hold(atoms as usize - 1);
    region
}

/// The closing of a region that holds the last atom, on both sides, which agree in answer, ticks and marks.
fn close_over(atoms: u64) {
    let words = atoms.div_ceil(64) as usize;
    let rounds = LONGEST.min(atoms);
    let start = Both::offered_over(atoms, &chain(atoms, rounds - 1));
    let mut held = vec![0; words];
    held[words - 1] = 1 << ((atoms - 1) % 64);
    let (mut tier, mut lent, mut checked) =
        (start.tier.clone(), start.lent.clone(), start.lent.clone());
    let (mut scratch, mut rows, mut noted) =
        (Scratch::new(words), vec![0; ROWS], vec![0; atoms as usize]);
    let (mut closed, mut cut) = (held.clone(), vec![0; words]);
    let mut marked = region(atoms);
    let (told, ticks) = scratch.close(&mut tier, &mut marked);
    let answer = lent.close(&mut closed, &mut cut, &mut rows, &mut noted);
    assert_eq!(
        (told, answer),
        (Some(rounds), [0, 0, ticks, 0]),
        "a closing of {rounds} rounds"
    );
    assert_eq!(
        (&closed[..], &cut[..]),
        marked.decision_words(),
        "a closed region"
    );
    measure(
        &format!("{rounds} rounds over {atoms} atoms"),
        1,
        Sides {
            rust: Box::new(|| {
                let mut marked = region(atoms);
                tier.set_fields(start.tier.fields());
                vec![timed(|| scratch.close(&mut tier, &mut marked))]
            }),
            verified: Box::new(|| {
                closed.copy_from_slice(&held);
                cut.fill(0);
                lent.0.head = start.lent.0.head;
                lent.0.postings.copy_from_slice(&start.lent.0.postings);
                vec![timed(|| {
                    lent.close(&mut closed, &mut cut, &mut rows, &mut noted)
                })]
            }),
            acceptance: Box::new(|| {
                checked.0.head = start.lent.0.head;
                vec![timed(|| checked.begin())]
            }),
        },
    );
}

pub fn rounds() {
    title("one closing");
    ATOMS.into_iter().for_each(close_over);
}

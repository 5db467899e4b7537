//! Closings.

use crate::both::Both;
use crate::random::Random;
use crate::rows::{ATOMS, KINDS, Kind, Marks, ROWS, WORDS, World};
use crate::timing::{Sides, measure, timed, title};
use zetesis_algebra::region::Region;
use zetesis_ferraris::regions::{Tier, metered};

/// Regions closed in turn, so that none is learned by heart.
const REGIONS: usize = 16;

/// What the Rust's closing works in.
pub struct Scratch {
    before: Vec<u64>,
    decided: Vec<usize>,
    rows: Vec<usize>,
}

impl Scratch {
    pub fn new(words: usize) -> Self {
        Self {
            before: vec![0; words],
            decided: Vec::new(),
            rows: Vec::new(),
        }
    }

    pub fn close(&mut self, tier: &mut Tier, region: &mut Region) -> (Option<u64>, u64) {
        let (rounds, ticks) = metered(u64::MAX, |work| {
            tier.close(
                region,
                &mut self.before,
                &mut self.decided,
                &mut self.rows,
                work,
            )
        });
        (rounds.expect("the meter does not run out"), ticks)
    }
}

fn region_of(marks: &Marks) -> Region {
    let mut region = Region::all_open(ATOMS as usize);
    for atom in 0..ATOMS as usize {
        let has = |mask: &[u64]| mask[atom / 64] >> (atom % 64) & 1 == 1;
        if has(&marks.held) {
            region.hold(atom);
        }
        if has(&marks.cut) {
            region.cut(atom);
        }
    }
    region
}

/// Closes every region on both sides, which agree in answer, ticks and marks. Gives the mean numbers of rounds, rows that
/// fired and atoms decided.
fn agree(both: &mut Both, regions: &[Marks]) -> [f64; 3] {
    let (mut scratch, mut rows, mut atoms) =
        (Scratch::new(WORDS), vec![0; ROWS], vec![0; ATOMS as usize]);
    let mut sums = [0; 3];
    for marks in regions {
        let mut region = region_of(marks);
        let mut closed = marks.clone();
        let before = both.lent.hits();
        let (rounds, ticks) = scratch.close(&mut both.tier, &mut region);
        let answer = both
            .lent
            .close(&mut closed.held, &mut closed.cut, &mut rows, &mut atoms);
        // No mark is against an output's value, so nothing is required, and no output named.
        let expected = [u64::from(rounds.is_none()), 0, ticks, 0];
        assert_eq!(answer, expected, "a closing");
        assert_eq!(
            (&closed.held[..], &closed.cut[..]),
            region.decision_words(),
            "a closed region"
        );
        let fired = both
            .lent
            .hits()
            .iter()
            .zip(&before)
            .filter(|(after, before)| after > before)
            .count();
        sums[0] += rounds.expect("no row is against the values");
        sums[1] += fired as u64;
        sums[2] += (region.decided().count() - region_of(marks).decided().count()) as u64;
    }
    sums.map(|sum| sum as f64 / regions.len() as f64)
}

/// Closings of a few regions in turn; the time is that of one.
fn closings(name: &str, start: &Both, regions: &[Marks]) {
    let mut warm = start.clone();
    let [rounds, fired, decided] = agree(&mut warm, regions);
    println!("{name}: {rounds:.1} rounds, {fired:.1} rows fire, {decided:.1} atoms decided");
    let open: Vec<Region> = regions.iter().map(region_of).collect();
    let (mut built, mut unbuilt) = (warm.clone(), warm);
    unbuilt.unbuild();
    // The postings are built where no round asked for them.
    built.narrow();
    built.lent.candidates(&[0], &mut [0; ROWS]);
    metered(u64::MAX, |work| built.tier.candidates(&[0], work));
    for (state, start) in [("built", built), ("unbuilt", unbuilt)] {
        let (mut lent, mut tier, mut checked) =
            (start.lent.clone(), start.tier.clone(), start.lent.clone());
        let (mut scratch, mut rows, mut atoms) =
            (Scratch::new(WORDS), vec![0; ROWS], vec![0; ATOMS as usize]);
        measure(
            &format!("  postings {state}"),
            REGIONS,
            Sides {
                rust: Box::new(|| {
                    let one = |region: &Region| {
                        let mut region = region.clone();
                        tier.set_fields(start.tier.fields());
                        timed(|| scratch.close(&mut tier, &mut region))
                    };
                    open.iter().map(one).collect()
                }),
                verified: Box::new(|| {
                    let one = |marks: &Marks| {
                        let mut marks = marks.clone();
                        lent.0.head = start.lent.0.head;
                        lent.0.postings.copy_from_slice(&start.lent.0.postings);
                        timed(|| lent.close(&mut marks.held, &mut marks.cut, &mut rows, &mut atoms))
                    };
                    regions.iter().map(one).collect()
                }),
                acceptance: Box::new(|| {
                    let accept = |_| {
                        checked.0.head = start.lent.0.head;
                        timed(|| checked.begin())
                    };
                    regions.iter().map(accept).collect()
                }),
            },
        );
    }
}

/// Regions under which no row fires, two chains do, or nearly all rows. A tenth of all atoms is marked in the first two.
fn close_kind(kind: Kind) {
    let world = World::new(kind, 11);
    let start = Both::offered(&world.rows);
    let mut conditional = vec![false; ATOMS as usize];
    for code in world.rows.iter().flat_map(|row| &row.conditions) {
        conditional[*code as usize / 2] = true;
    }
    let mut random = Random(13);
    let mut regions = |marks: &dyn Fn(&mut Random) -> Marks| -> Vec<Marks> {
        (0..REGIONS).map(|_| marks(&mut random)).collect()
    };
    let cases = [
        (
            "no row fires",
            regions(&|random| world.marks(random, 100, |_| true)),
        ),
        (
            "a few fire",
            regions(&|random| world.marks_chains(random, 100)),
        ),
        (
            "nearly all fire",
            regions(&|random| world.marks(random, 970, |atom| conditional[atom as usize])),
        ),
    ];
    for (what, regions) in cases {
        closings(&format!("{}, {what}", kind.name), &start, &regions);
    }
}

pub fn closing() {
    title("closing, 256 rows");
    KINDS.into_iter().for_each(close_kind);
}

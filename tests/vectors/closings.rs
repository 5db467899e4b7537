//! Closings, each stopped at every limit: document 01's examples, conflicts, and ledgers of no, one, 64, 65 and 90 rows, with
//! postings stale and built.

use oracle::{Answer, Limits};

use crate::Writer;
use crate::call::{Call, Meter, Region};

/// More than any call here ticks.
pub const AMPLE: u64 = 1_000_000;
/// Up to this limit every one is tried, and then about `SPREAD` of them.
const ALL: u64 = 1400;
const SPREAD: u64 = 20;

/// A row, or a region's held and cut atoms.
type Pair<'a> = (&'a [u64], &'a [u64]);

/// Ledgers, and the regions that are closed under each: a number of atoms, rows, regions.
const SMALL: [(u64, &[Pair<'_>], &[Pair<'_>]); 23] = [
    // No row.
    (128, &[], &[(&[], &[]), (&[0, 127], &[64]), (&[], &[5])]),
    // The first card: forced, required, nothing, both decided against each other.
    (
        128,
        &[(&[7], &[140])],
        &[
            (&[], &[]),
            (&[3], &[]),
            (&[70], &[]),
            (&[], &[3]),
            (&[3, 70], &[]),
        ],
    ),
    // No condition: forced at once, or a conflict.
    (
        128,
        &[(&[], &[140])],
        &[(&[], &[]), (&[70], &[]), (&[], &[70])],
    ),
    // Packed.
    (
        128,
        &[(&[1, 3], &[140, 142])],
        &[
            (&[0, 1], &[]),
            (&[0, 71], &[]),
            (&[0, 1, 71], &[]),
            (&[0, 1], &[70, 71]),
        ],
    ),
    // The fifth card's rows, in both orders.
    (
        128,
        &[(&[1], &[140, 142]), (&[1, 3], &[144])],
        &[
            (&[0], &[]),
            (&[0, 1], &[]),
            (&[0, 72], &[]),
            (&[1, 70], &[]),
        ],
    ),
    (
        128,
        &[(&[1, 3], &[140, 142, 144]), (&[1], &[140, 142])],
        &[
            (&[0], &[]),
            (&[0, 1], &[]),
            (&[0, 72], &[]),
            (&[1, 70], &[]),
        ],
    ),
    // Both signs of an atom among the outputs: absent first, then the conflict.
    (128, &[(&[], &[140, 141])], &[(&[], &[]), (&[70], &[])]),
    (
        128,
        &[(&[], &[2, 3, 4, 5, 6, 7])],
        &[(&[], &[]), (&[1], &[]), (&[1, 2, 3], &[])],
    ),
    // A row against itself, and one that says what is so.
    (
        128,
        &[(&[1], &[0])],
        &[(&[0], &[]), (&[], &[0]), (&[], &[])],
    ),
    (
        128,
        &[(&[1], &[1])],
        &[(&[0], &[]), (&[], &[0]), (&[], &[])],
    ),
    // A chain: one round, and a round a row; backwards by what is required.
    (
        128,
        &[(&[1], &[3]), (&[3], &[5]), (&[5], &[7])],
        &[(&[0], &[]), (&[], &[3]), (&[0], &[3]), (&[1], &[])],
    ),
    (
        128,
        &[(&[5], &[7]), (&[3], &[5]), (&[1], &[3])],
        &[(&[0], &[]), (&[], &[3]), (&[0], &[3]), (&[1], &[])],
    ),
    // A conflict that two rows make, in the first round and in a later one.
    (
        128,
        &[(&[1], &[3]), (&[5], &[2])],
        &[(&[0, 2], &[]), (&[0], &[])],
    ),
    (
        128,
        &[(&[5], &[2]), (&[3], &[5]), (&[1], &[3])],
        &[(&[0], &[]), (&[1], &[])],
    ),
    // One atom, and atoms at a word's end.
    (1, &[(&[], &[1])], &[(&[], &[]), (&[0], &[]), (&[], &[0])]),
    (
        65,
        &[(&[127], &[129]), (&[129], &[1, 3])],
        &[(&[63], &[]), (&[64], &[]), (&[], &[1]), (&[], &[64])],
    ),
    // The output that a Require names: of both signs of an atom, of two; the last of two Requires; a Conflict after one.
    (
        128,
        &[(&[7], &[140, 141])],
        &[(&[70], &[]), (&[], &[70]), (&[3], &[])],
    ),
    (
        128,
        &[(&[7], &[140]), (&[9], &[7]), (&[1, 3], &[140, 142])],
        &[
            (&[70], &[]),
            (&[0, 70, 71], &[]),
            (&[0, 71], &[]),
            (&[0, 1, 70], &[]),
        ],
    ),
    (
        128,
        &[(&[], &[9]), (&[9], &[7]), (&[7], &[140])],
        &[(&[70], &[]), (&[70], &[4])],
    ),
    // Named is what was contradicted at the reading: 20 is so only afterwards.
    (
        128,
        &[(&[7], &[20, 140]), (&[6], &[21])],
        &[(&[70], &[]), (&[10, 70], &[])],
    ),
    // Over 200,000 atoms, on both sides of 32,768 and of 65,536: scalar, and packed.
    (
        200_000,
        &[(&[65_535, 65_537], &[131_071, 131_073, 399_998])],
        &[
            (&[], &[]),
            (&[32_767, 32_768], &[]),
            (&[32_767, 199_999], &[]),
            (&[32_768], &[65_536]),
            (&[32_767, 32_768, 199_999], &[]),
        ],
    ),
    (
        200_000,
        &[(
            &[65_533, 65_535, 65_537, 65_539],
            &[131_069, 131_071, 131_072, 131_073, 131_075],
        )],
        &[
            (&[32_766, 32_767, 32_768, 32_769], &[]),
            (&[32_766, 32_767, 32_769], &[65_534, 65_535]),
            (&[32_767, 32_768, 32_769], &[65_537]),
            (&[32_766, 32_767, 32_768, 32_769, 65_536], &[]),
        ],
    ),
    // Two rows whose codes have the same low 16 bits.
    (
        200_000,
        &[(&[7], &[140]), (&[65_543], &[65_676])],
        &[
            (&[3], &[]),
            (&[32_771], &[]),
            (&[70], &[]),
            (&[32_838], &[]),
            (&[3, 32_838], &[]),
        ],
    ),
];

/// Limits with room for so many rows.
pub fn limits(atoms: u64, tier_rows: u64) -> Limits {
    Limits {
        atoms,
        tier_rows,
        founded_conditions: 16,
        founded_outputs: 64,
        founded_floor: 0,
        founded_attempts: 256,
        founded_work: AMPLE,
        share_work: AMPLE,
        share_conditions: 8,
        share_hits: 2,
    }
}

impl Writer {
    pub fn make(&mut self, place: usize, limits: Limits) {
        self.call(&Call::Make {
            place,
            limits,
            number: place as u64 + 1,
        });
    }

    /// An offer of a Founded row to ledger 0.
    pub fn offer(&mut self, conditions: &[u64], outputs: &[u64], limit: u64) {
        self.offer_from(conditions, outputs, 0, limit);
    }

    /// An offer to ledger 0 of a source.
    pub fn offer_from(&mut self, conditions: &[u64], outputs: &[u64], source: u64, limit: u64) {
        self.call(&Call::Offer {
            place: 0,
            meter: Meter::fresh(limit),
            conditions: conditions.to_vec(),
            outputs: outputs.to_vec(),
            source,
        });
    }

    fn close(&mut self, place: usize, limit: u64, region: &Region) {
        self.call(&Call::Close {
            place,
            meter: Meter::fresh(limit),
            region: region.clone(),
        });
    }

    /// The charge of a closing that nothing stops.
    fn charge(&self, place: usize, region: &Region) -> u64 {
        let mut ledger = self.ledgers[place].clone().expect("a ledger that is made");
        let masks = crate::generate::masks(ledger.atoms(), region);
        let closed = ledger.close(masks, AMPLE);
        assert_ne!(closed.answer, Answer::Stopped);
        closed.charge
    }

    pub fn search(&mut self, place: usize, limit: u64, atoms: &[u64]) {
        self.call(&Call::Candidates {
            place,
            meter: Meter::fresh(limit),
            atoms: atoms.to_vec(),
        });
    }

    /// Ledger 1 holds the rows of ledger 0, its postings stale.
    pub fn renew(&mut self) {
        let ledger = self.ledgers[0].as_ref().expect("ledger 0 is made");
        let limits = ledger.limits();
        self.make(1, limits);
        self.call(&Call::Seed {
            tier: 1,
            store: 0,
            meter: Meter::fresh(AMPLE),
        });
    }
}

fn region((held, cut): Pair<'_>) -> Region {
    Region {
        held: held.to_vec(),
        cut: cut.to_vec(),
    }
}

/// The limits tried up to a charge.
pub fn tried(charge: u64) -> impl Iterator<Item = u64> {
    let step = (charge.saturating_sub(ALL) / SPREAD).max(1);
    (0..=charge).filter(move |limit| *limit <= ALL || (charge - limit) % step == 0)
}

/// Up to 64 rows a closing leaves nothing behind but hits, so that one ledger serves for all.
fn every_limit(writer: &mut Writer, place: usize, region: &Region) {
    for limit in tried(writer.charge(place, region)) {
        writer.close(place, limit, region);
    }
}

/// With more rows a closing that is not stopped early builds the postings: then the ledger is made anew.
fn every_limit_stale(writer: &mut Writer, region: &Region) {
    writer.renew();
    for limit in tried(writer.charge(1, region)) {
        let stale = writer.ledgers[1]
            .as_ref()
            .is_some_and(|ledger| ledger.header().stale);
        if !stale {
            writer.renew();
        }
        writer.close(1, limit, region);
    }
}

fn every_limit_built(writer: &mut Writer, region: &Region) {
    writer.renew();
    // The first search takes all rows, the second builds the postings.
    writer.search(1, AMPLE, &[]);
    writer.search(1, AMPLE, &[]);
    every_limit(writer, 1, region);
}

/// A chain of so many rows: atom i + 1 held → atom i held. Every seventh has its condition's atom among its outputs too.
pub fn chain(writer: &mut Writer, rows: u64) {
    writer.make(0, limits(128, rows.max(66)));
    for atom in 0..rows {
        let condition = 2 * atom + 3;
        let outputs = [2 * atom + 1, condition];
        let count = if atom % 7 == 6 { 2 } else { 1 };
        writer.offer(&[condition], &outputs[..count], AMPLE);
    }
}

/// The closings under the small ledgers.
fn small(writer: &mut Writer) {
    for (number, (atoms, rows, regions)) in SMALL.iter().enumerate() {
        writer.line(format_args!(
            "\n# Closings under ledger {number}, each at every limit."
        ));
        writer.make(0, limits(*atoms, 64));
        rows.iter()
            .for_each(|(conditions, outputs)| writer.offer(conditions, outputs, AMPLE));
        regions
            .iter()
            .for_each(|pair| every_limit(writer, 0, &region(*pair)));
        writer.reset();
    }
}

/// The closings under a chain of so many rows.
fn long(writer: &mut Writer, rows: u64) {
    writer.line(format_args!("\n# Closings under a chain of {rows} rows."));
    chain(writer, rows);
    // A row a round to the end; two rounds; a conflict on the way; what is required.
    let whole = region((&[rows], &[]));
    let short = region((&[2], &[]));
    let broken = region((&[rows], &[rows / 2]));
    let back = region((&[], &[rows - 1]));
    if rows == 64 {
        [&whole, &short, &broken, &back]
            .into_iter()
            .for_each(|region| every_limit(writer, 0, region));
    } else {
        [&whole, &short]
            .into_iter()
            .for_each(|region| every_limit_stale(writer, region));
        [&broken, &short, &back]
            .into_iter()
            .for_each(|region| every_limit_built(writer, region));
    }
    writer.reset();
}

pub fn write(writer: &mut Writer) {
    small(writer);
    [64, 65, 90].into_iter().for_each(|rows| long(writer, rows));
}

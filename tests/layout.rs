//! The words of a ledger, written from document 01's records, 02's Eight and include/ledger.h: the one encoder of the tests in Rust.
//! tests/damaged has another, in Python, on purpose: what it expects is a reading of document 01 apart from this one.

use oracle::{Header, Ledger, Limits, Row};

/// The words of a header.
pub const HEAD: usize = 26;
/// The words of an answer: case, value, ticks, contradicted.
pub const ANSWER: usize = 4;
/// The words of a slot.
pub const SLOT: usize = 169;
/// A slot's word of the source, its last.
pub const SOURCE: usize = 168;
/// A header's word of the founded count, its last.
pub const FOUNDED: usize = 25;
/// The words of the postings for each row of the tier.
pub const POSTINGS: usize = 80;

/// The ten limits in document 01's order.
pub fn limit_words(limits: &Limits) -> [u64; 10] {
    [
        limits.atoms,
        limits.tier_rows,
        limits.founded_conditions,
        limits.founded_outputs,
        limits.founded_floor,
        limits.founded_attempts,
        limits.founded_work,
        limits.share_work,
        limits.share_conditions,
        limits.share_hits,
    ]
}

/// The words of a ledger's header.
pub fn head(ledger: &Ledger) -> [u64; HEAD] {
    head_words(&ledger.limits(), &ledger.header())
}

/// The words of a header, with include/ledger.h's places.
pub fn head_words(limits: &Limits, header: &Header) -> [u64; HEAD] {
    let (marked, number, born) = match header.mark {
        None => (0, 0, 0),
        Some((number, born)) => (1, number, born),
    };
    let counts = [
        header.number,
        header.rows,
        header.born,
        header.epoch,
        header.attempts,
        header.remaining,
        header.sharing,
        header.evicted,
        header.deliveries,
        header.seeded,
        u64::from(header.stale),
        u64::from(header.full),
        marked,
        number,
        born,
        header.founded,
    ];
    let mut words = [0; HEAD];
    let limits = limit_words(limits);
    words[..limits.len()].copy_from_slice(&limits);
    words[limits.len()..].copy_from_slice(&counts);
    words
}

/// Adds the groups of ascending codes: atom / 64, present bits, absent bits. It gives their number.
fn groups(codes: &[u64], words: &mut Vec<[u64; 3]>) -> usize {
    let start = words.len();
    for code in codes {
        let (index, bit) = (code / 2 / 64, code / 2 % 64);
        if words[start..].last().is_none_or(|group| group[0] != index) {
            words.push([index, 0, 0]);
        }
        let sign = if code % 2 == 1 { 1 } else { 2 };
        words.last_mut().expect("a group")[sign] |= 1 << bit;
    }
    words.len() - start
}

/// The words of a row's slot. It is packed exactly if 3 * groups < 2 * literals.
pub fn slot(row: &Row) -> [u64; SLOT] {
    let mut body = Vec::new();
    let condition_groups = groups(&row.conditions, &mut body);
    groups(&row.outputs, &mut body);
    let literals = row.conditions.len() + row.outputs.len();
    let packed = 3 * body.len() < 2 * literals;
    let mut words = [0; SLOT];
    words[0] = row.conditions.len() as u64;
    words[1] = row.outputs.len() as u64;
    words[4..8].copy_from_slice(&[row.hits, row.unshared, row.born, u64::from(row.delivered)]);
    words[SOURCE] = row.source;
    if packed {
        words[2] = body.len() as u64;
        words[3] = condition_groups as u64;
        words[8..8 + 3 * body.len()].copy_from_slice(body.as_flattened());
    } else {
        let outputs = 8 + row.conditions.len();
        words[8..outputs].copy_from_slice(&row.conditions);
        words[outputs..8 + literals].copy_from_slice(&row.outputs);
    }
    words
}

/// The postings of the rows, ascending: one for each condition atom and one for each output atom.
pub fn postings(rows: &[Row]) -> Vec<u64> {
    let mut words = Vec::new();
    for (position, row) in rows.iter().enumerate() {
        let mut outputs: Vec<u64> = row.outputs.iter().map(|code| code / 2).collect();
        outputs.dedup();
        let atoms = row.conditions.iter().map(|code| code / 2).chain(outputs);
        words.extend(atoms.map(|atom| atom * 4_096 + position as u64));
    }
    words.sort_unstable();
    words
}

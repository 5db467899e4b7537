//! Large ledgers: 64 rows are scanned; past that a stale ledger is rebuilt, one tick a posting, in a closing too.

use oracle::{Header, Limits};

use crate::call::{Call, Meter, Region};
use crate::given::{AMPLE, ENDLESS, Entry, Given, entry, header, left, limits};
use crate::lines::{Books, Lines};
use crate::sweeps::{alone, offer};

/// The row at a position of a chain: atom i + 1 held → atom i held, born i + 1.
fn link(position: u64) -> Entry {
    let codes = [2 * position + 3, 2 * position + 1];
    entry(&codes[..1], &codes[1..], (0, 0, position + 1, false))
}

/// A ledger of so many links.
fn chained(rows: u64, limits: Limits) -> Given {
    Given {
        limits,
        header: Header {
            stale: true,
            ..header(7, rows)
        },
        rows: (0..rows).map(link).collect(),
    }
}

fn candidates(atoms: &[u64], meter: Meter) -> Call {
    Call::Candidates {
        place: 0,
        meter,
        atoms: atoms.to_vec(),
    }
}

/// The least limit at which a call on a stale ledger builds its postings.
fn building(books: &Books, call: impl Fn(Meter) -> Call) -> u64 {
    let built = |limit: &u64| {
        let mut books = books.clone();
        Lines::dry(&call(Meter::fresh(*limit)), &mut books);
        !books.tier.expect("a tier").ledger.header().stale
    };
    let mut limits = 0..AMPLE;
    limits
        .find(built)
        .expect("a limit that is enough to rebuild")
}

/// A search of 65 rows: an atom twice, and one that is not there. Stopped around the end of its rebuild; then at every
/// limit when it is built.
fn searches(lines: &mut Lines, room: Limits) {
    let scanned = alone(&chained(64, room));
    lines.call("64", &candidates(&[3], ENDLESS), &mut scanned.clone());
    let books = alone(&chained(65, room));
    let search = |meter| candidates(&[3, 3, 500], meter);
    let built = building(&books, search);
    for ticks in [0, 1, built - 1, built, built + 1] {
        lines.call(
            &format!("65:left={ticks}"),
            &search(left(ticks)),
            &mut books.clone(),
        );
    }
    let mut after = books;
    let charge = lines.call("65", &search(ENDLESS), &mut after).charge - built;
    for ticks in 0..=charge + 1 {
        lines.call(
            &format!("65:built,left={ticks}"),
            &search(left(ticks)),
            &mut after.clone(),
        );
    }
}

/// Closings of the chain and a packed row, 0 and 1 held → 1 held, 66 and 67 cut: an atom on both sides.
fn closings(lines: &mut Lines, room: Limits) {
    let mut given = chained(65, room).with(|header| header.born = 66);
    given
        .rows
        .push(entry(&[1, 3], &[3, 132, 134], (2, 1, 66, true)));
    let books = alone(&given);
    let close = |held: &[u64], cut: &[u64], meter| Call::Close {
        place: 0,
        meter,
        region: Region {
            held: held.to_vec(),
            cut: cut.to_vec(),
        },
    };
    let open = |meter| close(&[3], &[64], meter);
    // Rebuilt in the second round, read in the third and fourth.
    let mut closed = books.clone();
    lines.call("66", &open(ENDLESS), &mut closed);
    // 67 held, which the last row cuts.
    lines.call(
        "66:clashing",
        &close(&[3, 67], &[], ENDLESS),
        &mut books.clone(),
    );
    lines.call("66:built", &close(&[2], &[], ENDLESS), &mut closed);
    // Stopped at the last posting of the rebuild, and at the first atom after it.
    let built = building(&books, open);
    for ticks in [built - 1, built] {
        lines.call(
            &format!("66:left={ticks}"),
            &open(left(ticks)),
            &mut books.clone(),
        );
    }
}

pub fn write(lines: &mut Lines) {
    let room = limits(68, 66, 64, 64);
    searches(lines, room);
    closings(lines, room);
    // 64 rows, and a floor of 64.
    let protected = chained(64, limits(68, 64, 64, 64));
    lines.call(
        "64:protected",
        &offer((&[1], &[5]), ENDLESS),
        &mut alone(&protected),
    );
}

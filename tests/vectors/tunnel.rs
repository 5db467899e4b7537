//! A tunnel line of as many points as a script has room for: more than 64 rows on both sides of 32,768 and of 65,536 atoms, searched and
//! closed, and a transfer of them.

use crate::Writer;
use crate::call::{Call, Meter, Region};
use crate::closings::{AMPLE, limits};

const POINTS: u64 = 200_000;
const ROWS: u64 = 65;
/// From a point of a row to the next row's.
const STEP: u64 = 3_001;
/// Every so many a limit is tried.
const STRIDE: usize = 9;

/// A chain: the point a step further held → this one held. Every seventh row has its condition's atom among its outputs too.
fn chain(writer: &mut Writer) {
    writer.make(0, limits(POINTS, ROWS + 1));
    for place in 0..ROWS {
        let (output, condition) = (2 * STEP * place + 1, 2 * STEP * (place + 1) + 1);
        let outputs = [output, condition];
        let count = if place % 7 == 6 { 2 } else { 1 };
        writer.offer(&[condition], &outputs[..count], AMPLE);
    }
}

/// Searches for points before 32,768, beyond it, beyond 65,536, and for such as no row has; stopped in the rebuild and after it.
fn searches(writer: &mut Writer) {
    writer.search(1, AMPLE, &[]);
    let atoms = [10 * STEP, 11 * STEP, 22 * STEP, POINTS - 1, POINTS];
    for limit in (0..145).step_by(STRIDE).chain([AMPLE, 0, 3, 9, AMPLE]) {
        writer.search(1, limit, &atoms);
    }
}

fn close(writer: &mut Writer, limit: u64, region: &Region) {
    writer.call(&Call::Close {
        place: 1,
        meter: Meter::fresh(limit),
        region: region.clone(),
    });
}

/// From point 11 down past 32,768; the whole line; against a point on the way; and back from a point that is cut.
fn closings(writer: &mut Writer) {
    let region = |held: &[u64], cut: &[u64]| Region {
        held: held.to_vec(),
        cut: cut.to_vec(),
    };
    let short = region(&[13 * STEP], &[9 * STEP]);
    for limit in (0..480).step_by(STRIDE) {
        close(writer, limit, &short);
    }
    for region in [
        region(&[ROWS * STEP], &[]),
        region(&[ROWS * STEP], &[21 * STEP]),
        region(&[], &[60 * STEP]),
    ] {
        close(writer, AMPLE, &region);
    }
}

pub fn write(writer: &mut Writer) {
    writer.line(format_args!(
        "\n# A tunnel line of {POINTS} points: searches and closings of {ROWS} rows."
    ));
    chain(writer);
    writer.renew();
    searches(writer);
    writer.renew();
    closings(writer);
    writer.call(&Call::Deliver {
        tier: 1,
        store: 0,
        meter: Meter::fresh(AMPLE),
    });
    writer.reset();
}

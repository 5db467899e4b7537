//! A call repeated at every limit of the meter and every value of its account, up to its charge.

use crate::call::{Call, Meter};
use crate::compare::World;
use crate::random::Random;
use crate::run::Comparison;

/// Up to so many values all are tried, above it the first ones, the last ones and some between.
const ALL: u64 = 400;

/// The values that are tried up to a charge.
fn tried(random: &mut Random, charge: u64) -> Vec<u64> {
    if charge <= ALL {
        return (0..=charge).collect();
    }
    let mut values: Vec<u64> = (0..ALL / 8).chain(charge - ALL / 16..=charge).collect();
    values.extend((0..ALL / 8).map(|_| random.below(charge)));
    values.sort_unstable();
    values.dedup();
    values
}

/// A meter with so much room: it begins at 0, a little above, or near the greatest number.
fn meter(random: &mut Random, room: u64) -> Meter {
    let charged = random.pick(&[0, 0, 5, u64::MAX - room]);
    Meter {
        charged,
        limit: charged + room,
    }
}

/// The call with another meter.
fn metered(call: &Call, meter: Meter) -> Call {
    let mut call = call.clone();
    call.meter_mut()
        .into_iter()
        .for_each(|place| *place = meter);
    call
}

/// A call that is tried, after the calls of a script.
pub struct Sweep<'a> {
    pub world: &'a World,
    pub history: &'a [Call],
    pub call: &'a Call,
}

impl Sweep<'_> {
    /// Tries the call on copies of the world.
    pub fn run(&self, comparison: &mut Comparison, random: &mut Random) {
        if self.call.meter().is_none() {
            return;
        }
        let ample = metered(self.call, Meter::fresh(u64::MAX));
        let Some(charge) = comparison.attempt(self.world, self.history, &[], &ample) else {
            return;
        };
        for room in tried(random, charge) {
            let stopped = metered(self.call, meter(random, room));
            comparison.attempt(self.world, self.history, &[], &stopped);
        }
        self.accounts(comparison, random, charge);
    }

    /// The same with every account. Which of account and meter runs out first must not matter but where both do.
    fn accounts(&self, comparison: &mut Comparison, random: &mut Random, charge: u64) {
        let (Some(field), (Some(place), _)) = (self.call.account(), self.call.places()) else {
            return;
        };
        for value in tried(random, charge) {
            let set = [Call::Set {
                place,
                field,
                value,
            }];
            let near = (value + random.below(3)).saturating_sub(1);
            for meter in [Meter::fresh(u64::MAX), meter(random, near)] {
                let call = metered(self.call, meter);
                comparison.attempt(self.world, self.history, &set, &call);
            }
        }
    }
}

//! The smallest script that still differs: calls are left out, then what they hold, as long as that is possible.

use crate::call::{Call, Field, Meter, Region};
use crate::compare::World;
use crate::fault::Fault;
use crate::run::Smallest;

/// So many scripts are tried at most.
const TRIES: usize = 12_000;

/// The number of the first call that differs, and how. A difference that only the end of the script shows is its last call's.
pub fn difference(script: &[Call], fault: Option<Fault>) -> Option<(usize, String)> {
    let mut world = World::new(fault);
    for (number, call) in script.iter().enumerate() {
        let made = world.step(call);
        if let Some(text) = made.and_then(|made| made.difference) {
            return Some((number, text));
        }
    }
    let text = world.anywhere()?;
    Some((script.len().saturating_sub(1), text))
}

struct Search {
    fault: Option<Fault>,
    tries: usize,
}

impl Search {
    fn differs(&mut self, script: &[Call]) -> bool {
        self.tries += 1;
        self.tries < TRIES && difference(script, self.fault).is_some()
    }

    /// Leaves out runs of so many calls.
    fn drop_runs(&mut self, script: &mut Vec<Call>, run: usize) {
        let mut start = 0;
        while start + run <= script.len() {
            let shorter = [&script[..start], &script[start + run..]].concat();
            if self.differs(&shorter) {
                *script = shorter;
            } else {
                start += run;
            }
        }
    }

    /// Leaves out calls, long runs first.
    fn drop_calls(&mut self, script: &mut Vec<Call>) {
        let half = script.len() / 2;
        let runs = (0..half.max(1).ilog2() + 1).map(|step| half >> step);
        runs.filter(|run| *run > 0)
            .for_each(|run| self.drop_runs(script, run));
    }

    /// Makes one call smaller, and says whether it could.
    fn lower(&mut self, script: &mut Vec<Call>, number: usize) -> bool {
        for less in smaller(&script[number]) {
            let mut changed = script.clone();
            changed[number] = less;
            if self.differs(&changed) {
                *script = changed;
                return true;
            }
        }
        false
    }

    /// Does without a set account: the ledger is made with as much as is left before the call.
    fn unset(&mut self, script: &mut Vec<Call>) {
        for number in (0..script.len()).rev() {
            if let Some(changed) = made_so(script, number)
                && self.differs(&changed)
            {
                *script = changed;
            }
        }
    }

    /// Lets all ledgers have fewer atoms at once: those of a transfer must have the same.
    fn fewer_atoms(&mut self, script: &mut Vec<Call>) {
        let named = script.iter().flat_map(atoms_of).max().unwrap_or(0);
        let mut changed = script.clone();
        for call in &mut changed {
            if let Call::Make { limits, .. } = call {
                limits.atoms = limits.atoms.min(named + 1);
            }
        }
        if self.differs(&changed) {
            *script = changed;
        }
    }

    /// Puts a smaller atom in the place of one, all over the script.
    fn rename(&mut self, script: &mut Vec<Call>, atom: u64) {
        let others = [0, 1, 2, atom / 2, atom.saturating_sub(1)];
        for other in others.into_iter().filter(|other| *other < atom) {
            let mut changed = script.clone();
            changed
                .iter_mut()
                .for_each(|call| replace(call, atom, other));
            if self.differs(&changed) {
                *script = changed;
                return;
            }
        }
    }

    /// Each of these in turn; the last calls first, since the others serve them.
    fn pass(&mut self, script: &mut Vec<Call>) {
        self.drop_calls(script);
        self.unset(script);
        for number in (0..script.len()).rev() {
            while self.lower(script, number) {}
        }
        let mut atoms: Vec<u64> = script.iter().flat_map(atoms_of).collect();
        atoms.sort_unstable();
        atoms.dedup();
        atoms.into_iter().for_each(|atom| self.rename(script, atom));
        self.fewer_atoms(script);
    }
}

/// Without the set account at `number`: the last Make of its ledger gives what was spent until there, and the value.
fn made_so(script: &[Call], number: usize) -> Option<Vec<Call>> {
    let Call::Set {
        place,
        field,
        value,
    } = script[number]
    else {
        return None;
    };
    let mut world = World::new(None);
    for call in &script[..number] {
        world.step(call);
    }
    let header = world.ledgers[place].as_ref()?.header();
    let made = |call: &Call| matches!(call, Call::Make { place: other, .. } if *other == place);
    let made = script[..number].iter().rposition(made)?;
    let mut changed = script.to_vec();
    let Call::Make { limits, .. } = &mut changed[made] else {
        return None;
    };
    let (work, left) = match field {
        Field::Remaining => (&mut limits.founded_work, header.remaining),
        Field::Sharing => (&mut limits.share_work, header.sharing),
        _ => return None,
    };
    *work = value.checked_add(work.checked_sub(left)?)?;
    changed.remove(number);
    Some(changed)
}

/// Numbers that are smaller.
fn less(number: u64) -> impl Iterator<Item = u64> {
    let steps = [number, number / 2, number / 4, number / 16, 1];
    let steps = steps
        .into_iter()
        .map(move |step| number.saturating_sub(step));
    steps.filter(move |&step| step < number)
}

/// Lists with an item less.
fn shorter(list: &[u64]) -> impl Iterator<Item = Vec<u64>> {
    (0..list.len()).map(|place| [&list[..place], &list[place + 1..]].concat())
}

/// The lists of a call.
fn lists(call: &mut Call) -> Vec<&mut Vec<u64>> {
    match call {
        Call::Offer {
            conditions,
            outputs,
            ..
        } => vec![conditions, outputs],
        Call::Candidates { atoms, .. } => vec![atoms],
        Call::Deduce { region, .. }
        | Call::Next { region, .. }
        | Call::Close { region, .. }
        | Call::Decide { region, .. } => {
            let Region { held, cut } = region;
            vec![held, cut]
        }
        Call::Unfit { call, .. } => lists(call),
        _ => Vec::new(),
    }
}

/// The single numbers of a call.
fn numbers(call: &mut Call) -> Vec<&mut u64> {
    match call {
        Call::Make { limits, number, .. } => vec![
            &mut limits.atoms,
            &mut limits.tier_rows,
            &mut limits.founded_conditions,
            &mut limits.founded_outputs,
            &mut limits.founded_floor,
            &mut limits.founded_attempts,
            &mut limits.founded_work,
            &mut limits.share_work,
            &mut limits.share_conditions,
            &mut limits.share_hits,
            number,
        ],
        Call::Offer { source, .. } => vec![source],
        Call::Hit { position, .. } | Call::Deduce { position, .. } => vec![position],
        Call::Next {
            position, cursor, ..
        } => std::iter::once(position).chain(cursor).collect(),
        Call::Decide { atoms, atom, .. } => vec![atoms, atom],
        Call::Set { value, .. } => vec![value],
        Call::Unfit { call, .. } => numbers(call),
        _ => Vec::new(),
    }
}

/// The call with one thing changed.
fn with(call: &Call, change: impl FnOnce(&mut Call)) -> Call {
    let mut changed = call.clone();
    change(&mut changed);
    changed
}

/// Calls with less room, or a meter that begins at 0.
fn smaller_meters(call: &Call) -> Vec<Call> {
    let Some(meter) = call.meter() else {
        return Vec::new();
    };
    let fresh = (meter.charged != 0).then_some(meter.room());
    let rooms = fresh.into_iter().chain(less(meter.room()));
    let metered = |room: u64| {
        with(call, |call| {
            let place = call.meter_mut();
            place
                .into_iter()
                .for_each(|place| *place = Meter::fresh(room));
        })
    };
    rooms.map(metered).collect()
}

/// Calls with a wound less, and the call with none.
fn fewer_wounds(call: &Call) -> Vec<Call> {
    let Call::Unfit { call, wounds } = call else {
        return Vec::new();
    };
    let without = |place: usize| Call::Unfit {
        call: call.clone(),
        wounds: [&wounds[..place], &wounds[place + 1..]].concat(),
    };
    let fewer = (0..wounds.len()).map(without);
    fewer.chain([Call::clone(call)]).collect()
}

/// Calls that are smaller in one thing.
fn smaller(call: &Call) -> Vec<Call> {
    let mut calls = smaller_meters(call);
    calls.extend(fewer_wounds(call));
    let mut copy = call.clone();
    for (place, list) in lists(&mut copy).into_iter().enumerate() {
        calls.extend(shorter(list).map(|less| with(call, |call| *lists(call)[place] = less)));
    }
    for (place, number) in numbers(&mut copy).into_iter().enumerate() {
        calls.extend(less(*number).map(|less| with(call, |call| *numbers(call)[place] = less)));
    }
    calls
}

/// Whether a call's lists hold codes; else they hold atoms.
fn holds_codes(call: &Call) -> bool {
    match call {
        Call::Unfit { call, .. } => holds_codes(call),
        call => matches!(call, Call::Offer { .. }),
    }
}

/// The atoms that a call names in lists.
fn atoms_of(call: &Call) -> Vec<u64> {
    let unit = if holds_codes(call) { 2 } else { 1 };
    let mut copy = call.clone();
    let lists = lists(&mut copy).into_iter();
    lists
        .flat_map(|list| list.iter().map(|item| item / unit).collect::<Vec<_>>())
        .collect()
}

/// Puts one atom in the place of another.
fn replace(call: &mut Call, atom: u64, other: u64) {
    let unit = if holds_codes(call) { 2 } else { 1 };
    for list in lists(call) {
        for item in list.iter_mut().filter(|item| **item / unit == atom) {
            *item = unit * other + *item % unit;
        }
        list.sort_unstable();
    }
}

/// Makes a script that differs as small as it can.
pub fn shrink(mut script: Vec<Call>, fault: Option<Fault>) -> Smallest {
    let mut search = Search { fault, tries: 0 };
    if let Some((last, _)) = difference(&script, fault) {
        script.truncate(last + 1);
    }
    let mut before = Vec::new();
    while before != script {
        before = script.clone();
        search.pass(&mut script);
    }
    let text = difference(&script, fault).map(|(_, text)| text);
    Smallest {
        script,
        text: text.unwrap_or("nothing, when it is run again".to_string()),
    }
}

//! A call as the Rust ends it.

use oracle::ledger::{decide, deliver, make, seed};
use oracle::{Answer, Done, Ledger};

use crate::call::{Call, Field, Meter};
use crate::end::{End, Scratch};
use crate::generate::{Ledgers, masks};
use crate::parts;

/// The answer, and every word that was lent besides the ledgers.
pub struct Ended {
    pub answer: Answer,
    pub end: End,
}

/// Sets a number of the ledger.
fn set(ledger: &mut Ledger, field: Field, value: u64) {
    let mut header = ledger.header();
    match field {
        Field::Remaining => header.remaining = value,
        Field::Sharing => header.sharing = value,
        Field::Born => header.born = value,
        Field::Evicted => header.evicted = value,
        Field::Deliveries => header.deliveries = value,
        Field::Seeded => header.seeded = value,
        Field::Hits(position) | Field::Unshared(position) if position < ledger.rows() => {
            let row = ledger.row(position);
            let mut record = oracle::Record {
                hits: row.hits,
                unshared: row.unshared,
                born: row.born,
                delivered: row.delivered,
            };
            match field {
                Field::Hits(_) => record.hits = value,
                _ => record.unshared = value,
            }
            ledger.set_record(position, record);
        }
        Field::Hits(_) | Field::Unshared(_) => {}
    }
    ledger.set_header(header);
}

/// A transfer between two ledgers.
fn transfer(
    ledgers: &mut Ledgers,
    places: [usize; 2],
    meter: Meter,
    run: fn(&mut Ledger, &mut Ledger, u64) -> Done,
) -> Option<Done> {
    let [tier, store] = ledgers.get_disjoint_mut(places).ok()?;
    Some(run(tier.as_mut()?, store.as_mut()?, meter.room()))
}

/// Runs a call. None: it is no call, or names a ledger that is not made.
pub fn run(call: &Call, ledgers: &mut Ledgers) -> Option<Ended> {
    let mut end = End::lent(call, ledgers);
    let mut named = None;
    let done = match call {
        Call::Make {
            place,
            limits,
            number,
        } => made(ledgers, *place, make(*limits, *number)),
        Call::Seed { tier, store, meter } => transfer(ledgers, [*tier, *store], *meter, seed)?,
        Call::Deliver { tier, store, meter } => {
            transfer(ledgers, [*tier, *store], *meter, deliver)?
        }
        Call::Decide {
            atoms,
            atom,
            value,
            region,
        } => {
            let closed = decide(*atoms, *atom, *value, masks(*atoms, region));
            end.region = closed.region;
            done(closed.answer, 0)
        }
        call => {
            let ledger = ledgers[call.places().0?].as_mut()?;
            one(call, ledger, &mut end, &mut named)?
        }
    };
    end.answered(done.answer, done.charge);
    named.into_iter().for_each(|code| end.names(code));
    Some(Ended {
        answer: done.answer,
        end,
    })
}

fn done(answer: Answer, charge: u64) -> Done {
    Done { answer, charge }
}

/// A made ledger stands at its place; after a refusal there is none.
fn made(ledgers: &mut Ledgers, place: usize, result: Result<Ledger, u64>) -> Done {
    let answer = match &result {
        Ok(_) => Answer::Done,
        Err(number) => Answer::Refused(*number),
    };
    ledgers[place] = result.ok();
    done(answer, 0)
}

/// A call of one ledger. `named` is the output that a closing names.
fn one(call: &Call, ledger: &mut Ledger, end: &mut End, named: &mut Option<u64>) -> Option<Done> {
    let room = call.meter().map_or(0, Meter::room);
    let done = match call {
        Call::Offer {
            conditions,
            outputs,
            source,
            ..
        } => ledger.offer(conditions, outputs, *source, room),
        Call::Hit { position, .. } => ledger.hit(*position),
        Call::Begin { .. } => ledger.begin(),
        Call::Deduce { position, .. } => ledger.deduce(*position, &end.region, room),
        Call::Candidates { atoms, .. } => search(ledger, atoms, room, end),
        Call::Next {
            position, cursor, ..
        } => {
            let cursor = parts::fields(*cursor);
            let published = ledger.next_output(*position, cursor, &end.region, room);
            end.cursor = parts::words(published.cursor);
            done(published.answer, published.charge)
        }
        Call::Close { .. } => close(ledger, room, end, named),
        Call::Set { field, value, .. } => {
            set(ledger, *field, *value);
            return None;
        }
        _ => return None,
    };
    Some(done)
}

/// Candidates: the positions, then zeros; zeros alone if it is stopped.
fn search(ledger: &mut Ledger, atoms: &[u64], room: u64, end: &mut End) -> Done {
    let found = ledger.candidates(atoms, room);
    if !matches!(found.answer, Answer::Refused(_)) {
        end.found.fill(0);
        end.found[..found.rows.len()].copy_from_slice(&found.rows);
        end.answer[1] = found.rows.len() as u64;
    }
    done(found.answer, found.charge)
}

fn close(ledger: &mut Ledger, room: u64, end: &mut End, named: &mut Option<u64>) -> Done {
    let closed = ledger.close(end.region.clone(), room);
    if !matches!(closed.answer, Answer::Refused(_)) {
        end.scratch = Scratch::Zeroed;
    }
    end.region = closed.region;
    *named = closed.contradicted;
    done(closed.answer, closed.charge)
}

//! Faults that the verified side is given on purpose, to see that the comparison finds each of them.

use crate::call::Call;
use crate::end::Scratch;
use crate::far::SPAN;
use crate::host::Lent;
use crate::layout::{ANSWER, FOUNDED, HEAD, SLOT, SOURCE};
use crate::told::{Require, Told};

#[derive(Clone, Copy, Debug, PartialEq, Eq)]
pub enum Fault {
    /// A Subsumed offer is charged a tick less in its answer.
    Ticks,
    /// The same in the meter.
    Meter,
    /// A required literal has the wrong sign.
    Sign,
    /// A required literal and an output have their low 16 bits alone.
    Narrow,
    /// So has the first code of a row that is stored.
    Stored,
    /// The greatest contradicted output is named.
    Greatest,
    /// The atom of an output is named.
    Atom,
    /// A closing names what its first Require does.
    First,
    /// A closing names the least that is contradicted at its end.
    Late,
    /// A closing that does not end Closed names none.
    Unnamed,
    /// An eviction is not counted.
    Evicted,
    /// An offer that is Stopped gives its attempt back.
    Attempts,
    /// A hit counts twice.
    Hits,
    /// A new row leaves a word in the slot behind it.
    Unused,
    /// The last posting is left out.
    Posting,
    /// The positions that are found descend.
    Found,
    /// After an output the cursor has lost its group.
    Cursor,
    /// A conflict loses what was decided.
    Region,
    /// A closing leaves a word in its scratch.
    Scratch,
    /// A stopped closing counts a hit that no reading earned.
    Earned,
    /// A refused call writes its answer.
    Refused,
    /// A stopped seeding moves the mark.
    Mark,
    /// A delivered row keeps what is unshared.
    Unshared,
    /// A stopped delivery pays nothing.
    Sharing,
    /// A Tip is stored as a Founded row.
    Tip,
    /// A row that joins others, or replaces them, has the other source.
    Joined,
    /// A Tip is counted as a Founded row.
    Counted,
    /// The founded count never falls.
    Rises,
    /// The rows that a transfer brings are all Founded, and counted so.
    Carried,
    /// A source that is none is refused before all else.
    Eager,
}

impl Fault {
    pub const ALL: [Self; 30] = [
        Self::Ticks,
        Self::Meter,
        Self::Sign,
        Self::Narrow,
        Self::Stored,
        Self::Greatest,
        Self::Atom,
        Self::First,
        Self::Late,
        Self::Unnamed,
        Self::Evicted,
        Self::Attempts,
        Self::Hits,
        Self::Unused,
        Self::Posting,
        Self::Found,
        Self::Cursor,
        Self::Region,
        Self::Scratch,
        Self::Earned,
        Self::Refused,
        Self::Mark,
        Self::Unshared,
        Self::Sharing,
        Self::Tip,
        Self::Joined,
        Self::Counted,
        Self::Rises,
        Self::Carried,
        Self::Eager,
    ];

    /// Alters what a call left. `head` is the tier's header before it.
    pub fn alter(self, call: &Call, head: &[u64; HEAD], told: &Told, lent: &mut Lent) {
        let answer = &mut lent.end.answer;
        if lent.end.result != 0 {
            answer[0] ^= u64::from(self == Self::Refused);
            let over = matches!(call, Call::Offer { source, .. } if *source > 1);
            if self == Self::Eager && over {
                lent.end.result = 11;
            }
            return;
        }
        if let Some(last) = told.requires.last() {
            self.alter_named(last, told, answer);
        }
        match call {
            Call::Offer { source, .. } => {
                self.alter_offer(head, lent);
                self.alter_source(*source, head, lent);
            }
            Call::Deduce { .. } if self == Self::Sign && answer[0] == 3 => answer[1] ^= 1,
            Call::Deduce { .. } | Call::Next { .. } if self == Self::Narrow => answer[1] %= SPAN,
            Call::Hit { position, .. } if self == Self::Hits && *position > 0 => {
                lent.tier.slots[SLOT * *position as usize + 4] += 1;
            }
            Call::Next { .. } if self == Self::Cursor && answer[0] == 1 => lent.end.cursor[1] = 0,
            Call::Candidates { .. } => self.alter_search(lent),
            Call::Close { .. } => self.alter_closing(lent),
            Call::Seed { .. } | Call::Deliver { .. } => self.alter_transfer(call, head, lent),
            _ => {}
        }
    }

    /// Of a deduction that is a Require, or of a closing that acted on one.
    fn alter_named(self, last: &Require, told: &Told, answer: &mut [u64; ANSWER]) {
        match self {
            Self::Greatest => answer[3] = last.contradicted[last.contradicted.len() - 1],
            Self::Atom => answer[3] /= 2,
            Self::First => answer[3] = told.requires[0].named(),
            // A deduction has no later end.
            Self::Late if !told.late.is_empty() => answer[3] = told.late[0],
            // 3 is a deduction's Require.
            Self::Unnamed if (1..3).contains(&answer[0]) => (answer[1], answer[3]) = (0, 0),
            _ => {}
        }
    }

    fn alter_offer(self, head: &[u64; HEAD], lent: &mut Lent) {
        let (tier, end) = (&mut lent.tier, &mut lent.end);
        let [case, value, ..] = end.answer;
        match self {
            Self::Ticks if case == 4 => end.answer[2] -= 1,
            Self::Meter if case == 4 => end.meter[0] -= 1,
            Self::Evicted => tier.head[17] = head[17],
            Self::Attempts if case == 2 => tier.head[14] = head[14],
            Self::Stored if case == 5 => tier.slots[SLOT * value as usize + 8] %= SPAN,
            Self::Unused if case == 5 && value > 0 => {
                // The last of the body.
                tier.slots[SLOT * value as usize + SOURCE - 1] = 1;
            }
            _ => {}
        }
    }

    /// Of an offer that was Added, with its source.
    fn alter_source(self, source: u64, head: &[u64; HEAD], lent: &mut Lent) {
        let (tier, [case, value, ..]) = (&mut lent.tier, lent.end.answer);
        if case != 5 {
            return;
        }
        let stored = &mut tier.slots[SLOT * value as usize + SOURCE];
        let grows = tier.head[11] > head[11] || tier.head[17] > head[17];
        match self {
            Self::Tip => *stored = 0,
            Self::Joined if !grows => *stored ^= 1,
            Self::Counted => tier.head[FOUNDED] += source,
            Self::Rises => tier.head[FOUNDED] = tier.head[FOUNDED].max(head[FOUNDED]),
            _ => {}
        }
    }

    fn alter_search(self, lent: &mut Lent) {
        let postings = &mut lent.tier.postings;
        let last = postings.iter_mut().rev().find(|word| **word != 0);
        match (self, last) {
            (Self::Posting, Some(last)) => *last = 0,
            (Self::Found, _) => lent.end.found[..lent.end.answer[1] as usize].reverse(),
            _ => {}
        }
    }

    fn alter_closing(self, lent: &mut Lent) {
        let end = &mut lent.end;
        let held = end.region.held.iter_mut().find(|word| **word != 0);
        match (self, end.answer[0], held) {
            (Self::Region, 1, Some(word)) => *word &= *word - 1,
            (Self::Scratch, 0, _) => end.scratch = Scratch::Else,
            (Self::Earned, 2, _) if lent.tier.head[11] > 0 => {
                lent.tier.slots[4] = lent.tier.slots[4].wrapping_add(1);
            }
            _ => {}
        }
    }

    fn alter_transfer(self, call: &Call, head: &[u64; HEAD], lent: &mut Lent) {
        let seeds = matches!(call, Call::Seed { .. });
        if self == Self::Carried {
            let book = if seeds {
                &mut lent.tier
            } else {
                &mut lent.store
            };
            book.head[FOUNDED] = book.head[11];
            let slots = book.slots.chunks_mut(SLOT);
            slots.for_each(|slot| slot[SOURCE] = 0);
        }
        let tier = &mut lent.tier;
        let stopped = lent.end.answer[0] == 2;
        match self {
            Self::Mark if seeds && stopped => tier.head[22] = 1,
            Self::Sharing if !seeds && stopped => tier.head[16] = head[16],
            Self::Unshared if !seeds && head[11] > 0 => {
                tier.slots[5] += u64::from(tier.slots[7] == 1);
            }
            _ => {}
        }
    }
}

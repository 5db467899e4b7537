//! What the calls answer. Each `match` on a case ends with its last one: the call's contract has no other number.

use crate::boundary::{ANSWER_WORDS, Answer};
use crate::region::Literal;
use std::error::Error;
use std::fmt;

/// A call that was refused, by its number. It changed nothing and charged nothing.
#[derive(Clone, Copy, Debug, PartialEq, Eq, Hash)]
pub struct Refusal(pub u8);

/// The words that a call answers, or the refusal that it gives back.
pub(crate) fn answered(call: impl FnOnce(&mut Answer) -> u64) -> Result<Answer, Refusal> {
    let mut answer = [0; ANSWER_WORDS];
    match call(&mut answer) {
        0 => Ok(answer),
        number => Err(Refusal(number as u8)),
    }
}

impl fmt::Display for Refusal {
    fn fmt(&self, f: &mut fmt::Formatter<'_>) -> fmt::Result {
        let reason = match self.0 {
            1 => "limits outside their ranges",
            2 => "words of another length",
            3 => "words that are no ledger's",
            4 => "conditions and outputs that are no row",
            5 => "no row at the position",
            6 => "no region over the atoms",
            7 => "tier and store over different numbers of atoms",
            8 => "a cursor that is not of this row",
            11 => "a source that is neither Founded nor Tip",
            _ => "no refusal",
        };
        write!(f, "refused by {}: {reason}", self.0)
    }
}

impl Error for Refusal {}

/// An answer, and the ticks that the call charged.
#[derive(Clone, Debug, PartialEq, Eq)]
pub struct Charged<T> {
    /// What the call answers.
    pub answer: T,
    /// The ticks made.
    pub ticks: u64,
}

impl<T> Charged<T> {
    pub(crate) fn new(answer: T, words: Answer) -> Charged<T> {
        Charged {
            answer,
            ticks: words[2],
        }
    }
}

/// The answer to an offered row.
#[derive(Clone, Copy, Debug, PartialEq, Eq)]
pub enum Offer {
    /// The ledger takes no offers: its attempts or reads are used up, or it is full, has no Tip, and no more Founded rows than
    /// the floor protects.
    Shut,
    /// The meter is at its limit.
    Stopped,
    /// The reads left do not pay for it.
    Declined,
    /// The row at this position says as much.
    Subsumed(usize),
    /// The row, joined with what it was joined to, stands at this position.
    Added(usize),
}

impl Offer {
    pub(crate) fn of([case, value, ..]: Answer) -> Offer {
        match case {
            1 => Offer::Shut,
            2 => Offer::Stopped,
            3 => Offer::Declined,
            4 => Offer::Subsumed(value as usize),
            _ => Offer::Added(value as usize),
        }
    }
}

/// The rows to be looked at after atoms were decided.
#[derive(Clone, Debug, PartialEq, Eq)]
pub enum Candidates {
    /// The meter is at its limit.
    Stopped,
    /// Their positions, ascending.
    Rows(Vec<usize>),
}

/// What a row says of a region.
#[derive(Clone, Copy, Debug, PartialEq, Eq)]
pub enum Deduction {
    /// Nothing.
    Nothing,
    /// All its conditions hold: its outputs are to be published.
    Force,
    /// The meter is at its limit.
    Stopped,
    /// An output is contradicted and one condition is undecided.
    Require {
        /// The opposite of that condition.
        required: Literal,
        /// Of the outputs whose opposite the region marks the one with the least code.
        contradicted: Literal,
    },
}

impl Deduction {
    pub(crate) fn of([case, value, _, contradicted]: Answer) -> Deduction {
        match case {
            0 => Deduction::Nothing,
            1 => Deduction::Force,
            2 => Deduction::Stopped,
            _ => Deduction::Require {
                required: Literal::of_word(value),
                contradicted: Literal::of_word(contradicted),
            },
        }
    }
}

/// The next output of a row.
#[derive(Clone, Copy, Debug, PartialEq, Eq)]
pub enum NextOutput {
    /// There is none left.
    End,
    /// The output.
    Output(Literal),
    /// The meter is at its limit.
    Stopped,
}

impl NextOutput {
    pub(crate) fn of([case, value, ..]: Answer) -> NextOutput {
        match case {
            0 => NextOutput::End,
            1 => NextOutput::Output(Literal::of_word(value)),
            _ => NextOutput::Stopped,
        }
    }
}

/// How a closing ended. Conflict and Stopped keep what was decided so far.
#[derive(Clone, Copy, Debug, PartialEq, Eq)]
pub enum Closing {
    /// No row forces or requires anything that the region lacks.
    Closed,
    /// A row decides against the region.
    Conflict,
    /// The meter is at its limit.
    Stopped,
}

impl Closing {
    fn of([case, ..]: Answer) -> Closing {
        match case {
            0 => Closing::Closed,
            1 => Closing::Conflict,
            _ => Closing::Stopped,
        }
    }
}

/// What a closing came to, beside the marks of the region.
#[derive(Clone, Copy, Debug, PartialEq, Eq)]
pub struct Closed {
    /// How it ended.
    pub end: Closing,
    /// The contradicted output of the last Require that it acted on, as that was read; none if no row required anything. A Conflict is
    /// no Require's: what ended the closing is not named, only what was required before.
    pub contradicted: Option<Literal>,
}

impl Closed {
    pub(crate) fn of(answer: Answer) -> Closed {
        let [_, named, _, contradicted] = answer;
        Closed {
            end: Closing::of(answer),
            contradicted: (named == 1).then_some(Literal::of_word(contradicted)),
        }
    }
}

/// How a seeding or a delivery ended. Rows that were taken stay.
#[derive(Clone, Copy, Debug, PartialEq, Eq)]
pub enum Transfer {
    /// It came to the end, or to a row that the tier's sharing account did not pay for or that found no place.
    Done,
    /// The meter is at its limit.
    Stopped,
}

impl Transfer {
    pub(crate) fn of([case, ..]: Answer) -> Transfer {
        match case {
            0 => Transfer::Done,
            _ => Transfer::Stopped,
        }
    }
}

//! The answers of all calls, written as the script language writes them.

use std::fmt;

/// The answer of a call. Positions, codes and refusal numbers are plain numbers.
#[derive(Clone, Copy, Debug, PartialEq, Eq)]
#[allow(missing_docs)]
pub enum Answer {
    Refused(u64),
    Shut,
    Stopped,
    Declined,
    Subsumed(u64),
    Added(u64),
    Done,
    Found,
    Nothing,
    Force,
    Require { required: u64, contradicted: u64 },
    Output(u64),
    End,
    Closed,
    Conflict,
    True,
    False,
}

impl fmt::Display for Answer {
    fn fmt(&self, f: &mut fmt::Formatter<'_>) -> fmt::Result {
        match self {
            Self::Refused(number) => write!(f, "Refused {number}"),
            Self::Subsumed(position) => write!(f, "Subsumed {position}"),
            Self::Added(position) => write!(f, "Added {position}"),
            Self::Require {
                required,
                contradicted,
            } => write!(f, "Require {required} contradicted={contradicted}"),
            Self::Output(code) => write!(f, "Output {code}"),
            plain => write!(f, "{plain:?}"),
        }
    }
}

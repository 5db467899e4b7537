//! The oracle: the Rust's ledger behind the calls of document 01.
//!
//! - `ledger`: a ledger and its calls, on plain numbers.
//! - `leaves`: the single functions of rows, regions and words.
//! - `script`: the script language, a line in and an answer line out.
//!
//! What the documents add to the Rust (refusals, Shut, closing, the numbers of a store, the output that a Require names) is
//! restated here; all else is the Rust's own.

#![forbid(unsafe_code)]
#![warn(missing_docs)]

pub mod answer;
pub mod leaves;
pub mod ledger;
pub mod literals;
pub mod script;

pub use answer::Answer;
pub use ledger::{Closed, Done, Found, Header, Ledger, Limits, Masks, Published, Row};
pub use script::Script;
pub use zetesis_ferraris::regions::{Cursor, Record};

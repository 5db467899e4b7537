//! The learned-row ledger of the oven panel, for Rust: a safe face of the proved functions that `include/ledger.h` declares.
//!
//! A [`Ledger`] owns its words and a [`Region`] the marks of a plan; each method lends them to one function of the static
//! library. Every number that a caller passes is fit to be passed: what is unfit comes back as a [`Refusal`], and then nothing
//! is changed. No method panics.
//!
//! ```text
//! tests/staticlib boundary
//! rustc --edition 2024 --crate-type rlib --crate-name ledger -L target/staticlib bindings/rust/src/lib.rs
//! rustc --edition 2024 --extern ledger=libledger.rlib program.rs
//! ```

#![deny(missing_docs)]
#![deny(unsafe_op_in_unsafe_fn)]

mod answers;
mod boundary;
mod ledger;
mod limits;
mod region;

pub use answers::{
    Candidates, Charged, Closed, Closing, Deduction, NextOutput, Offer, Refusal, Transfer,
};
pub use ledger::{Cursor, Ledger, Mark, Meter, Source};
pub use limits::LearningLimits;
pub use region::{Literal, Region};

//! Stands for the root of the crate `zetesis_algebra`.
//!
//! It names the three files of the Rust that the ledger reads, `cancellation`, `region` and `words/storage`, and hands on
//! what they declare. The other modules of that crate are not named by the ledger, so leaving them out changes nothing.

#![forbid(unsafe_code)]

#[allow(dead_code)]
pub mod cancellation;
pub mod region;
pub mod words;

pub use cancellation::{
    Cancellation, Failure, Meter, POLL_INTERVAL, Quota, Refusal, Reservation, Stop,
};

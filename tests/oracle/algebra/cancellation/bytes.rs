//! Stands for `cancellation/bytes`: document 01 leaves byte counts behind, and the ledger names none of these.

/// Named by the Rust and never made here.
pub enum MeterBytes {}

/// Named by the Rust and never made here.
pub enum MeterBytesError {}

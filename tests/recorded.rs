//! What the makers of recorded calls share: calls as data, their random authors, and their ends as the Rust gives them. The modules are
//! those of tests/differential; they name each other from the root of a program, which therefore imports them from here.

#[path = "differential/ledger/call.rs"]
pub mod call;
#[path = "differential/ledger/end.rs"]
pub mod end;
#[path = "differential/far.rs"]
pub mod far;
#[path = "differential/ledger/generate.rs"]
pub mod generate;
#[path = "layout.rs"]
pub mod layout;
#[path = "differential/ledger/parts.rs"]
pub mod parts;
#[path = "random.rs"]
pub mod random;
#[path = "differential/ledger/rust.rs"]
pub mod rust;

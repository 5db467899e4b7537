//! Measures whole operations beside the Rust: the verified ones by the functions for C, acceptance of the lent ledger and all,
//! the Rust's by its own functions, which check nothing. Both sides get the same rows and regions, and must give the same
//! answers and ticks before anything is measured. Times are in microseconds.
//!
//!     operations operations | closing | rounds

#[allow(dead_code)]
#[path = "../../book.rs"]
mod book;
mod both;
#[allow(dead_code)]
#[path = "../../../bindings/rust/src/boundary.rs"]
mod boundary;
mod closing;
mod lent;
mod operations;
#[path = "../place.rs"]
mod place;
#[path = "../../random.rs"]
mod random;
mod rounds;
mod rows;
mod timing;

fn main() {
    match std::env::args().nth(1).as_deref() {
        Some("operations") => operations::operations(),
        Some("closing") => closing::closing(),
        Some("rounds") => rounds::rounds(),
        _ => panic!("one word: operations, closing or rounds"),
    }
}

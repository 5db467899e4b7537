//! Stands for the root of the module `words`: it hands on the storage of packed words, and adds nothing.

mod storage;

pub use storage::{SetBits, Words};

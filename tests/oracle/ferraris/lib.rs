//! Stands for the root of the crate `zetesis_ferraris`: it holds `regions` alone, since the ledger names no other module.

#![forbid(unsafe_code)]

pub mod regions;

//! Stands for `regions/founded`: it holds the names that the ledger imports from the collector.

pub(in crate::regions) mod explanations;

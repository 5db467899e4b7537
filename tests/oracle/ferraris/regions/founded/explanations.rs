//! Stands for `founded/explanations`, which document 01 leaves behind.
//!
//! An offered row is given, not collected: the driver calls what `capture` does after `collect`, and never `capture`
//! itself. So nothing here ever runs; only the names and fields are needed.

use std::marker::PhantomData;

use zetesis_algebra::{Failure, Meter, Quota};

/// What a collection reads. Nothing here.
pub(in crate::regions) struct Input<'a> {
    theory: PhantomData<&'a ()>,
}

/// The bounds of a collection.
pub(in crate::regions) struct Limits {
    pub(in crate::regions) atoms: usize,
    pub(in crate::regions) literals: usize,
    pub(in crate::regions) visits: u64,
    pub(in crate::regions) bytes: u128,
}

/// What a collection gives.
pub(in crate::regions) struct Explanation {
    pub(in crate::regions) conditions: Vec<(usize, bool)>,
    pub(in crate::regions) unsupported: Vec<usize>,
}

impl Explanation {
    /// Bytes are not compared.
    pub(in crate::regions) fn retained_bytes(&self) -> u128 {
        0
    }
}

/// Collects nothing.
pub(in crate::regions) fn collect<Q: Quota + ?Sized>(
    _input: Input<'_>,
    _atom: usize,
    _limits: Limits,
    _work: &mut Meter<'_, Q>,
    _peak: &mut u128,
) -> Result<Option<Explanation>, Failure<Q::Error>> {
    Ok(None)
}

//! Stands for `cancellation/permits`: the count of a meter, and how one operation is taken from it.
//!
//! `cancellation.rs` says what is asked of it: a tick is admitted first if nothing is unused, and is then counted; a
//! refused admission counts nothing. The ledger calls `tick` alone. The rest is here because the meter names it.

/// Operations performed, and operations admitted in all.
pub trait State {
    /// Operations admitted and not performed.
    fn unused(&self) -> u64;
    /// Count performed operations.
    fn consume(&mut self, actual: u64);
    /// Give up what is unused.
    fn release(&mut self);
}

/// The two numbers of a meter, borrowed from it.
pub struct Counted<'a> {
    /// Operations performed.
    pub charged: &'a mut u64,
    /// Operations admitted.
    pub admitted: &'a mut u64,
}

impl State for Counted<'_> {
    fn unused(&self) -> u64 {
        *self.admitted - *self.charged
    }

    fn consume(&mut self, actual: u64) {
        *self.charged += actual;
    }

    fn release(&mut self) {
        *self.admitted = *self.charged;
    }
}

/// Count one operation, admitting more first where nothing is unused.
#[inline]
pub fn tick<S: State, E>(
    state: &mut S,
    admit: impl FnOnce(&mut S) -> Result<(), E>,
) -> Result<(), E> {
    if state.unused() == 0 {
        admit(state)?;
    }
    state.consume(1);
    Ok(())
}

/// Count up to `wanted` operations, as far as they are admitted.
pub fn take_available<S: State>(state: &mut S, wanted: u64) -> u64 {
    let taken = wanted.min(state.unused());
    state.consume(taken);
    taken
}

/// Hand what is unused back to its owner.
pub fn settle<S: State>(state: &mut S, refund: impl FnOnce(&S)) {
    refund(state);
    state.release();
}

/// Named by the Rust and never made here.
pub enum PermitLease {}

/// Named by the Rust and never made here.
pub enum PermitSettlement {}

//! Stands for `cancellation/slot`: no handle of a slot is ever made here, so a poll meets none.

/// Named by the Rust and never made here.
pub enum CancellationRun {}

/// Named by the Rust and never made here.
pub enum CancellationSlot {}

/// Named by the Rust and never made here.
pub enum CancellationSlotError {}

/// The slot of a handle. There is none.
#[derive(Clone, Debug)]
pub enum Membership {}

impl Membership {
    /// The view that a poll reads: none, since there is no slot.
    pub fn polling(slot: Option<&Self>) -> Option<MembershipPoll<'_>> {
        slot.map(|never| match *never {})
    }
}

/// The view that a poll reads. There is none.
#[derive(Clone, Copy, Debug)]
pub struct MembershipPoll<'a> {
    never: &'a Membership,
}

impl MembershipPoll<'_> {
    /// Whether a slot was cancelled: no, since there is none.
    pub fn is_cancelled(view: Option<Self>) -> bool {
        view.is_some_and(|view| match *view.never {})
    }
}

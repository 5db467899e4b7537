//! The functions of the static library, as `include/ledger.h` declares them. A lent array is a reference; a lent slice is a
//! pointer and a length. Nothing checks these lines against the library: tests/calls.rs calls each of them,
//! and tests/boundary/layout compares the numbers with the source.

#[cfg(not(target_arch = "x86_64"))]
compile_error!("the static library of the ledger is made for x86-64");

pub const LIMITS_WORDS: usize = 10;
pub const HEADER_WORDS: usize = 26;
pub const ANSWER_WORDS: usize = 4;
pub const METER_WORDS: usize = 2;
pub const CURSOR_WORDS: usize = 4;
pub const SLOT_WORDS: usize = 169;
pub const POSTING_WORDS: usize = 80;

/// The words of a header: the limits, number, rows, born, epoch, attempts, remaining, sharing, evicted, deliveries, seeded,
/// stale, full, the three of the mark, and founded.
pub type Header = [u64; HEADER_WORDS];
/// The limits in the header's order.
pub type Limits = [u64; LIMITS_WORDS];
/// Case, value, ticks, contradicted.
pub type Answer = [u64; ANSWER_WORDS];
/// Charged, limit.
pub type MeterWords = [u64; METER_WORDS];
/// Next, word, present, absent.
pub type CursorWords = [u64; CURSOR_WORDS];

/// Calls a function of the library: an argument in brackets is a slice, lent to be written (`mut`) or to be read.
macro_rules! call {
    ($function:ident($($argument:tt)*)) => {
        call!(@ $function [] $($argument)*,)
    };
    // The last argument may have a comma of its own.
    (@ $function:ident [$($done:expr,)*] ,) => {
        call!(@ $function [$($done,)*])
    };
    (@ $function:ident [$($done:expr,)*]) => {
        // SAFETY: each pointer is of an array or a slice that lives through the call, the latter with its own length; what is
        // written is borrowed for writing, and so overlaps nothing else.
        unsafe { $function($($done,)*) }
    };
    (@ $function:ident [$($done:expr,)*] [mut $slice:expr], $($rest:tt)*) => {
        call!(@ $function [$($done,)* $slice.as_mut_ptr(), $slice.len(),] $($rest)*)
    };
    (@ $function:ident [$($done:expr,)*] [$slice:expr], $($rest:tt)*) => {
        call!(@ $function [$($done,)* $slice.as_ptr(), $slice.len(),] $($rest)*)
    };
    (@ $function:ident [$($done:expr,)*] $plain:expr, $($rest:tt)*) => {
        call!(@ $function [$($done,)* $plain,] $($rest)*)
    };
}
pub(crate) use call;

#[link(name = "boundary", kind = "static")]
unsafe extern "C" {
    pub fn ledger_make(
        limits: &Limits,
        number: u64,
        head: &mut Header,
        answer: &mut Answer,
        slots: *mut u64,
        slots_len: usize,
        postings: *mut u64,
        postings_len: usize,
    ) -> u64;

    pub fn ledger_begin(
        head: &mut Header,
        answer: &mut Answer,
        slots: *const u64,
        slots_len: usize,
        postings: *const u64,
        postings_len: usize,
    ) -> u64;

    pub fn ledger_hit(
        head: &mut Header,
        answer: &mut Answer,
        slots: *mut u64,
        slots_len: usize,
        postings: *const u64,
        postings_len: usize,
        position: u64,
    ) -> u64;

    pub fn ledger_deduce(
        head: &Header,
        answer: &mut Answer,
        meter: &mut MeterWords,
        slots: *const u64,
        slots_len: usize,
        postings: *const u64,
        postings_len: usize,
        position: u64,
        held: *const u64,
        held_len: usize,
        cut: *const u64,
        cut_len: usize,
    ) -> u64;

    pub fn ledger_next_output(
        head: &Header,
        answer: &mut Answer,
        meter: &mut MeterWords,
        cursor: &mut CursorWords,
        slots: *const u64,
        slots_len: usize,
        postings: *const u64,
        postings_len: usize,
        position: u64,
        held: *const u64,
        held_len: usize,
        cut: *const u64,
        cut_len: usize,
    ) -> u64;

    pub fn ledger_decide(
        answer: &mut Answer,
        atoms: u64,
        held: *mut u64,
        held_len: usize,
        cut: *mut u64,
        cut_len: usize,
        atom: u64,
        value: u64,
    ) -> u64;

    pub fn ledger_offer(
        head: &mut Header,
        answer: &mut Answer,
        meter: &mut MeterWords,
        slots: *mut u64,
        slots_len: usize,
        postings: *mut u64,
        postings_len: usize,
        conditions: *const u64,
        conditions_len: usize,
        outputs: *const u64,
        outputs_len: usize,
        source: u64,
    ) -> u64;

    pub fn ledger_candidates(
        head: &mut Header,
        answer: &mut Answer,
        meter: &mut MeterWords,
        slots: *const u64,
        slots_len: usize,
        postings: *mut u64,
        postings_len: usize,
        atoms: *const u64,
        atoms_len: usize,
        found: *mut u64,
        found_len: usize,
    ) -> u64;

    pub fn ledger_close(
        head: &mut Header,
        answer: &mut Answer,
        meter: &mut MeterWords,
        slots: *mut u64,
        slots_len: usize,
        postings: *mut u64,
        postings_len: usize,
        held: *mut u64,
        held_len: usize,
        cut: *mut u64,
        cut_len: usize,
        rows: *mut u64,
        rows_len: usize,
        atoms: *mut u64,
        atoms_len: usize,
    ) -> u64;

    pub fn ledger_seed(
        tier: &mut Header,
        store: &mut Header,
        answer: &mut Answer,
        meter: &mut MeterWords,
        tier_slots: *mut u64,
        tier_slots_len: usize,
        tier_postings: *mut u64,
        tier_postings_len: usize,
        store_slots: *const u64,
        store_slots_len: usize,
        store_postings: *const u64,
        store_postings_len: usize,
    ) -> u64;

    pub fn ledger_deliver(
        tier: &mut Header,
        store: &mut Header,
        answer: &mut Answer,
        meter: &mut MeterWords,
        tier_slots: *mut u64,
        tier_slots_len: usize,
        tier_postings: *const u64,
        tier_postings_len: usize,
        store_slots: *mut u64,
        store_slots_len: usize,
        store_postings: *mut u64,
        store_postings_len: usize,
    ) -> u64;
}

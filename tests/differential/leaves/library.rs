//! The static library of crate `leaves`, whose source says what each function takes and gives. A lent slice is a pointer
//! and a length, a lent array a pointer, a truth value a word. A function that takes `times` is called so many times in a row,
//! each with the account and the meter that the last left.

use crate::case::{Row, SLOT_WORDS};

/// Four words: of a payment the account, 1 for the sharing one, charged and limit; or an answer; or a cursor.
pub type Four = [u64; 4];

#[link(name = "leaves", kind = "static")]
unsafe extern "C" {
    fn leaf_prepare(
        atoms: u64,
        conditions: *const u64,
        conditions_length: usize,
        outputs: *const u64,
        outputs_length: usize,
        paying: *const Four,
        times: u64,
        slot: *mut u64,
        slot_length: usize,
        answer: *mut Four,
    ) -> u64;
    fn leaf_includes(
        atoms: u64,
        candidates: *const u64,
        candidates_length: usize,
        wanted: *const u64,
        wanted_length: usize,
        forms: u64,
        paying: *const Four,
        times: u64,
        answer: *mut Four,
    ) -> u64;
    fn leaf_subsumes(
        atoms: u64,
        conditions: *const u64,
        conditions_length: usize,
        outputs: *const u64,
        outputs_length: usize,
        other_conditions: *const u64,
        other_conditions_length: usize,
        other_outputs: *const u64,
        other_outputs_length: usize,
        turned: u64,
        paying: *const Four,
        times: u64,
        answer: *mut Four,
    ) -> u64;
    fn leaf_union_outputs(
        atoms: u64,
        conditions: *const u64,
        conditions_length: usize,
        outputs: *const u64,
        outputs_length: usize,
        other_conditions: *const u64,
        other_conditions_length: usize,
        other_outputs: *const u64,
        other_outputs_length: usize,
        maximum: u64,
        paying: *const Four,
        times: u64,
        slot: *mut u64,
        slot_length: usize,
        answer: *mut Four,
    ) -> u64;
    fn leaf_deduction(
        atoms: u64,
        conditions: *const u64,
        conditions_length: usize,
        outputs: *const u64,
        outputs_length: usize,
        held: *const u64,
        held_length: usize,
        cut: *const u64,
        cut_length: usize,
        paying: *const Four,
        times: u64,
        answer: *mut Four,
    ) -> u64;
    fn leaf_next_output(
        atoms: u64,
        conditions: *const u64,
        conditions_length: usize,
        outputs: *const u64,
        outputs_length: usize,
        held: *const u64,
        held_length: usize,
        cut: *const u64,
        cut_length: usize,
        cursor: *mut Four,
        paying: *const Four,
        answer: *mut Four,
    ) -> u64;
    fn leaf_decide(
        atoms: u64,
        held: *mut u64,
        held_length: usize,
        cut: *mut u64,
        cut_length: usize,
        atom: u64,
        value: u64,
        answer: *mut Four,
    ) -> u64;
    fn leaf_next_from(words: *const u64, length: usize, from: u64, answer: *mut Four) -> u64;
    fn leaf_contains(words: *const u64, length: usize, atom: u64) -> u64;
    fn leaf_insert(words: *mut u64, length: usize, atom: u64);
}

/// The two lists of a row as pointers and lengths, in front of the other arguments of a call.
macro_rules! of_row {
    ($function:ident, $atoms:expr, [$($row:expr),+], $($rest:expr),+) => {
        // SAFETY: each pointer is of a slice that lives through the call, with its own length; the arrays have theirs.
        unsafe { $function($atoms, $($row.conditions.as_ptr(), $row.conditions.len(), $row.outputs.as_ptr(), $row.outputs.len(),)+ $($rest),+) }
    };
}

/// The form of a row, in the slot where its reads are paid.
pub fn prepare(
    atoms: u64,
    row: &Row,
    paying: &Four,
    times: u64,
    slot: &mut [u64; SLOT_WORDS],
    answer: &mut Four,
) -> u64 {
    of_row!(
        leaf_prepare,
        atoms,
        [row],
        paying,
        times,
        slot.as_mut_ptr(),
        slot.len(),
        answer
    )
}

/// Whether the other row's outputs are among the row's, each in the form of a stored row where `forms` says so.
pub fn includes(
    atoms: u64,
    row: &Row,
    other: &Row,
    forms: u64,
    paying: &Four,
    times: u64,
    answer: &mut Four,
) -> u64 {
    let (candidates, wanted) = (&row.outputs, &other.outputs);
    // SAFETY: as above.
    unsafe {
        leaf_includes(
            atoms,
            candidates.as_ptr(),
            candidates.len(),
            wanted.as_ptr(),
            wanted.len(),
            forms,
            paying,
            times,
            answer,
        )
    }
}

/// Whether the row subsumes the other one, or, turned, the other one the row.
pub fn subsumes(
    atoms: u64,
    row: &Row,
    other: &Row,
    turned: bool,
    paying: &Four,
    times: u64,
    answer: &mut Four,
) -> u64 {
    of_row!(
        leaf_subsumes,
        atoms,
        [row, other],
        u64::from(turned),
        paying,
        times,
        answer
    )
}

/// The union of the row with the other one, which is in the slot after it.
pub fn union_outputs(
    atoms: u64,
    row: &Row,
    other: &Row,
    maximum: u64,
    paying: &Four,
    times: u64,
    slot: &mut [u64; SLOT_WORDS],
    answer: &mut Four,
) -> u64 {
    of_row!(
        leaf_union_outputs,
        atoms,
        [row, other],
        maximum,
        paying,
        times,
        slot.as_mut_ptr(),
        slot.len(),
        answer
    )
}

/// What the row says of a region.
pub fn deduction(
    atoms: u64,
    row: &Row,
    held: &[u64],
    cut: &[u64],
    paying: &Four,
    times: u64,
    answer: &mut Four,
) -> u64 {
    of_row!(
        leaf_deduction,
        atoms,
        [row],
        held.as_ptr(),
        held.len(),
        cut.as_ptr(),
        cut.len(),
        paying,
        times,
        answer
    )
}

/// The next output of the row, and the cursor past it.
pub fn next_output(
    atoms: u64,
    row: &Row,
    held: &[u64],
    cut: &[u64],
    cursor: &mut Four,
    paying: &Four,
    answer: &mut Four,
) -> u64 {
    of_row!(
        leaf_next_output,
        atoms,
        [row],
        held.as_ptr(),
        held.len(),
        cut.as_ptr(),
        cut.len(),
        cursor,
        paying,
        answer
    )
}

/// Decides an atom of a region.
pub fn decide(
    atoms: u64,
    held: &mut [u64],
    cut: &mut [u64],
    atom: u64,
    value: bool,
    answer: &mut Four,
) -> u64 {
    let (held_length, cut_length) = (held.len(), cut.len());
    let (held, cut) = (held.as_mut_ptr(), cut.as_mut_ptr());
    // SAFETY: as above.
    unsafe {
        leaf_decide(
            atoms,
            held,
            held_length,
            cut,
            cut_length,
            atom,
            u64::from(value),
            answer,
        )
    }
}

/// The first set position at or after one.
pub fn next_from(words: &[u64], from: u64, answer: &mut Four) -> u64 {
    // SAFETY: as above.
    unsafe { leaf_next_from(words.as_ptr(), words.len(), from, answer) }
}

pub fn contains(words: &[u64], atom: u64) -> bool {
    // SAFETY: as above.
    unsafe { leaf_contains(words.as_ptr(), words.len(), atom) != 0 }
}

pub fn insert(words: &mut [u64], atom: u64) {
    // SAFETY: as above.
    unsafe { leaf_insert(words.as_mut_ptr(), words.len(), atom) }
}

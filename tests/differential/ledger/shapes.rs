//! Shapes of calls, of which each must occur: which ones a call has, by their places in a list of names.

/// The shapes of a call, by their places.
pub type Places = Vec<usize>;

/// The places that have something, from one on.
pub fn chosen<const N: usize>(first: usize, has: [bool; N]) -> Places {
    let has = has.into_iter().enumerate();
    has.filter(|(_, has)| *has)
        .map(|(place, _)| first + place)
        .collect()
}

//! Which outputs a region contradicts: document 02's Six, read here apart from the driver of tests/oracle. That one goes through a row's
//! outputs; this goes through the marks of the region.

/// The positions of a word's bits.
fn bits(word: u64) -> impl Iterator<Item = u64> {
    (0..64).filter(move |bit| word >> bit & 1 == 1)
}

/// The outputs whose opposite a region marks, by ascending codes. The first is the one that a Require names.
pub fn contradicted(outputs: &[u64], held: &[u64], cut: &[u64]) -> Vec<u64> {
    let mut found = Vec::new();
    for (word, (held, cut)) in held.iter().zip(cut).enumerate() {
        let first = 128 * word as u64;
        for bit in bits(held | cut) {
            // What is held contradicts the output that cuts it, and the other way round.
            let is_cut = cut >> bit & 1;
            let code = first + 2 * bit + is_cut;
            found.extend(outputs.contains(&code).then_some(code));
        }
    }
    found
}

/// The shapes of Requires that must occur.
pub const SHAPES: [&str; 8] = [
    "a scalar Require of 64 outputs, the first contradicted",
    "a scalar Require of 64 outputs, the last contradicted",
    "a scalar Require of 64 outputs, several contradicted",
    "a packed Require of 64 outputs, the first contradicted",
    "a packed Require of 64 outputs, the last contradicted",
    "a packed Require of 64 outputs, several contradicted",
    "a Require of both signs of an atom that names the absent",
    "a Require of both signs of an atom that names the present",
];

/// Which of them a Require has, by its row's outputs and form and what is contradicted. The first or the last is so alone.
pub fn shapes(outputs: &[u64], packed: bool, contradicted: &[u64]) -> [bool; SHAPES.len()] {
    let whole = outputs.len() == 64;
    let alone = |output: Option<&u64>| contradicted.len() == 1 && contradicted.first() == output;
    let places = [
        alone(outputs.first()),
        alone(outputs.last()),
        contradicted.len() > 1,
    ];
    let of_form = |packs: bool| places.map(|place| place && whole && packed == packs);
    let [first, last, several] = of_form(false);
    let [packed_first, packed_last, packed_several] = of_form(true);
    let named = contradicted.first().copied();
    let both =
        |sign: u64| named.is_some_and(|code| code % 2 == sign && outputs.contains(&(code ^ 1)));
    [
        first,
        last,
        several,
        packed_first,
        packed_last,
        packed_several,
        both(0),
        both(1),
    ]
}

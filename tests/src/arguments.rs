//! The numbers that a program of the comparison may be given.

/// The argument at this place, counted from 0.
pub fn asked(index: usize, otherwise: u64) -> u64 {
    let given = std::env::args().nth(1 + index);
    given.map_or(otherwise, |text| text.parse().expect("a number"))
}

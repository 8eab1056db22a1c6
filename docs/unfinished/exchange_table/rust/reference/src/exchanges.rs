//! The printed table of exchanges (document 02, L4).

use std::fmt::Write;

use crate::directions::{SIGNS, Sign, Vector, mapped};
use crate::ticket::Step;

/// The signs of a vector, and = for the loops that are missing, as base-three digits: the outermost is the most significant.
pub fn number(vector: &[Sign]) -> usize {
    let missing = std::iter::repeat(&Sign::Equal);
    let digits = vector.iter().chain(missing).take(6).map(|sign| match sign {
        Sign::Less => 0,
        Sign::Equal => 1,
        Sign::Greater => 2,
    });
    digits.fold(0, |number, digit| number * 3 + digit)
}

/// The vector of six signs with this number.
pub fn vector(number: usize) -> Vector {
    let weights = (0..6).rev().map(|place| 3_usize.pow(place));
    weights.map(|weight| SIGNS[number / weight % 3]).collect()
}

/// For each of five neighbouring places, from the outermost, and each vector number, rising, the number after the exchange: a line each.
pub fn table() -> String {
    let mut text = String::new();
    for a in 0..5 {
        for before in 0..729 {
            for after in mapped(&Step::Exchange { a }, &vector(before)) {
                writeln!(text, "{}", number(&after)).expect("text in memory");
            }
        }
    }
    text
}

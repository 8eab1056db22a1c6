//! The listing's text.

use std::collections::BTreeSet;
use std::fmt::Write;

use crate::directions::{Line, Sign};

fn letter(sign: &Sign) -> char {
    match sign {
        Sign::Less => '<',
        Sign::Equal => '=',
        Sign::Greater => '>',
    }
}

pub fn listing(loops: usize, iterations: usize, lines: &BTreeSet<Line>) -> String {
    let mut text = format!("{loops} {iterations} {}\n", lines.len());
    for line in lines {
        let (source, sink) = (line.source + 1, line.sink + 1);
        let vector: String = line.vector.iter().map(letter).collect();
        writeln!(text, "{:?} {source} {sink} {vector}", line.kind).expect("text in memory");
    }
    text
}

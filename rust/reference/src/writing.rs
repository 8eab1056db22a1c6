//! From a ticket to words and bytes, in the ticket's sections.

use crate::ticket::{Access, Affine, Limit, Nest, Step, Ticket};

fn affine(words: &mut Vec<i64>, e: &Affine) {
    words.push(e.constant);
    words.extend(&e.coefficients);
}

fn side(words: &mut Vec<i64>, limits: &[Limit]) {
    words.push(limits.len() as i64);
    for limit in limits {
        words.push(limit.p);
        affine(words, &limit.e);
    }
}

fn access(words: &mut Vec<i64>, access: &Access) {
    words.push(access.array as i64 + 1);
    for subscript in &access.subscripts {
        affine(words, subscript);
    }
}

fn step(words: &mut Vec<i64>, step: &Step) {
    let from_1 = |number: usize| number as i64 + 1;
    words.extend(match *step {
        Step::Exchange { a } => [1, from_1(a), from_1(a + 1), 0],
        Step::Reversal { a } => [2, from_1(a), 0, 0],
        Step::Skew { a, b, c } => [3, from_1(a), from_1(b), c],
        Step::Section { a, width } => [4, from_1(a), width, 0],
        Step::Circulation { a, b } => [5, from_1(a), from_1(b), 0],
    });
}

/// The first three sections.
fn nest(words: &mut Vec<i64>, nest: &Nest) {
    words.push(nest.loops.len() as i64);
    for l in &nest.loops {
        side(words, &l.lower);
        side(words, &l.upper);
    }
    words.push(nest.arrays.len() as i64);
    for extents in &nest.arrays {
        words.push(extents.len() as i64);
        words.extend(extents);
    }
    words.push(nest.statements.len() as i64);
    for statement in &nest.statements {
        words.extend([statement.rule, statement.constant]);
        access(words, &statement.write);
        words.push(statement.reads.len() as i64);
        for read in &statement.reads {
            access(words, read);
        }
    }
}

pub fn words_of(ticket: &Ticket) -> Vec<i64> {
    let mut words = vec![];
    nest(&mut words, &ticket.nest);
    words.push(ticket.steps.len() as i64);
    for s in &ticket.steps {
        step(&mut words, s);
    }
    words
}

/// Each word's two bytes, the low one first; a word beyond 16 bits loses its high bits.
pub fn bytes_of(words: &[i64]) -> Vec<u8> {
    let words = words.iter();
    words.flat_map(|word| (*word as i16).to_le_bytes()).collect()
}

/// A nest with step count 0.
pub fn written(nest: &Nest) -> Vec<u8> {
    let ticket = Ticket {
        nest: nest.clone(),
        steps: vec![],
    };
    bytes_of(&words_of(&ticket))
}

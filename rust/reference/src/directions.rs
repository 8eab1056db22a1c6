//! Directions: conflicts of all pairs of instances, the vectors of a nest, and how a step maps each.

use std::collections::BTreeSet;

use crate::points::Point;
use crate::ticket::{Nest, Step};

/// In the listing's order.
#[derive(Clone, Copy, PartialEq, Eq, PartialOrd, Ord, Debug)]
pub enum Sign {
    /// The source index is smaller.
    Less,
    Equal,
    Greater,
}

use Sign::{Equal, Greater, Less};

pub const SIGNS: [Sign; 3] = [Less, Equal, Greater];

pub type Vector = Vec<Sign>;

/// In the listing's order.
#[derive(Clone, Copy, PartialEq, Eq, PartialOrd, Ord, Debug)]
pub enum Kind {
    /// Write then read.
    F,
    /// Read then write.
    A,
    /// Write then write.
    O,
}

/// One line of the listing; the order of the fields is the order of the lines. Statements are counted from 0.
#[derive(Clone, PartialEq, Eq, PartialOrd, Ord, Debug)]
pub struct Line {
    pub source: usize,
    pub sink: usize,
    pub kind: Kind,
    pub vector: Vector,
}

fn kind(source_writes: bool, sink_writes: bool) -> Option<Kind> {
    match (source_writes, sink_writes) {
        (true, false) => Some(Kind::F),
        (false, true) => Some(Kind::A),
        (true, true) => Some(Kind::O),
        (false, false) => None,
    }
}

fn sign(source: i64, sink: i64) -> Sign {
    match source.cmp(&sink) {
        std::cmp::Ordering::Less => Less,
        std::cmp::Ordering::Equal => Equal,
        std::cmp::Ordering::Greater => Greater,
    }
}

/// An access: its statement, whether it writes, and the element that it names at each point.
struct Trace {
    statement: usize,
    writes: bool,
    elements: Vec<usize>,
}

fn traces(nest: &Nest, points: &[Point]) -> Vec<Trace> {
    let mut traces = vec![];
    for (statement, s) in nest.statements.iter().enumerate() {
        for (number, access) in s.accesses().enumerate() {
            traces.push(Trace {
                statement,
                writes: number == 0,
                elements: points.iter().map(|point| nest.element(access, point)).collect(),
            });
        }
    }
    traces
}

/// The signs between two points, read as a number in base 3.
fn rank(source: &Point, sink: &Point) -> usize {
    let signs = source.iter().zip(sink).map(|(from, to)| sign(*from, *to));
    signs.fold(0, |rank, sign| 3 * rank + sign as usize)
}

fn vector_of_rank(rank: usize, loops: u32) -> Vector {
    (0..loops).rev().map(|place| SIGNS[rank / 3usize.pow(place) % 3]).collect()
}

/// The vectors, by rank, of all pairs of instances at which two accesses name one element, `source` being the earlier: it is in an
/// earlier iteration, or in the same one and in an earlier statement.
fn meetings(source: &Trace, sink: &Trace, points: &[Point]) -> BTreeSet<usize> {
    let mut marks = vec![false; 729];
    for (at, element) in sink.elements.iter().enumerate() {
        let earlier = if source.statement < sink.statement { at + 1 } else { at };
        for (from, other) in source.elements[..earlier].iter().enumerate() {
            if element == other {
                marks[rank(&points[from], &points[at])] = true;
            }
        }
    }
    (0..marks.len()).filter(|rank| marks[*rank]).collect()
}

/// All conflicts of a nest whose iterations are `points`, in rising order.
pub fn conflicts(nest: &Nest, points: &[Point]) -> BTreeSet<Line> {
    let traces = traces(nest, points);
    let mut lines = BTreeSet::new();
    for source in &traces {
        for sink in &traces {
            let Some(kind) = kind(source.writes, sink.writes) else { continue };
            for rank in meetings(source, sink, points) {
                lines.insert(Line {
                    source: source.statement,
                    sink: sink.statement,
                    kind,
                    vector: vector_of_rank(rank, nest.loops.len() as u32),
                });
            }
        }
    }
    lines
}

/// Kinds and statements merged.
pub fn vectors(lines: &BTreeSet<Line>) -> BTreeSet<Vector> {
    lines.iter().map(|line| line.vector.clone()).collect()
}

pub fn backwards(vector: &[Sign]) -> bool {
    vector.iter().find(|sign| **sign != Equal) == Some(&Greater)
}

pub fn turned(sign: Sign) -> Sign {
    match sign {
        Less => Greater,
        Equal => Equal,
        Greater => Less,
    }
}

/// The signs that a sum of two numbers with these signs can have.
fn sums(one: Sign, other: Sign) -> Vec<Sign> {
    match (one, other) {
        (Equal, sign) | (sign, Equal) => vec![sign],
        (Less, Less) => vec![Less],
        (Greater, Greater) => vec![Greater],
        _ => SIGNS.to_vec(),
    }
}

/// The pairs of signs, of S and of E, that a sectioned loop's sign becomes.
fn parts(sign: Sign) -> Vec<[Sign; 2]> {
    match sign {
        Equal => vec![[Equal, Equal]],
        sign => {
            let across = SIGNS.iter().map(|inner| [sign, *inner]);
            std::iter::once([Equal, sign]).chain(across).collect()
        }
    }
}

/// The vectors that a step makes of one.
pub fn mapped(step: &Step, vector: &[Sign]) -> Vec<Vector> {
    let mut new = vector.to_vec();
    match *step {
        Step::Exchange { a } => {
            new.swap(a, a + 1);
            vec![new]
        }
        Step::Reversal { a } => {
            new[a] = turned(new[a]);
            vec![new]
        }
        Step::Skew { a, b, c } => {
            let added = if c == 1 { vector[a] } else { turned(vector[a]) };
            let replaced = sums(added, vector[b]).into_iter().map(|sign| {
                new[b] = sign;
                new.clone()
            });
            replaced.collect()
        }
        Step::Section { a, .. } => {
            let (outside, inside) = (&vector[..a], &vector[a + 1..]);
            let parts = parts(vector[a]).into_iter();
            parts.map(|pair| [outside, &pair, inside].concat()).collect()
        }
        Step::Circulation { a, b } => {
            let sign = new.remove(a);
            new.insert(b, sign);
            vec![new]
        }
    }
}

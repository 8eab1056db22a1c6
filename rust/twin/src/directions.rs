//! The set of direction vectors, by value through each step. A vector is numbered by its signs as base-three digits, the outermost most
//! significant: < is 0, = is 1, > is 2.

use crate::dependence::Lines;
use crate::ticket::{MOST_LOOPS, Step};

const POWERS: [usize; MOST_LOOPS + 1] = [1, 3, 9, 27, 81, 243, 729];

pub fn power(n: usize) -> usize {
    POWERS[n]
}

/// The sign at loop k of a vector of so many loops.
pub fn sign_at(number: usize, depth: usize, k: usize) -> usize {
    number / power(depth - 1 - k) % 3
}

/// The first 3^depth marks are in use.
pub struct DirectionSet {
    marks: [bool; 729],
    depth: usize,
}

impl DirectionSet {
    /// The vectors of all lines, kinds merged.
    pub fn of(lines: &Lines) -> DirectionSet {
        let mut marks = [false; 729];
        for block in lines.marks.chunks_exact(lines.vectors()) {
            for (mark, other) in marks.iter_mut().zip(block) {
                *mark |= *other;
            }
        }
        DirectionSet { marks, depth: lines.depth }
    }

    /// Whether a vector's first sign other than = is >: those are the numbers beyond the one whose signs are all =.
    pub fn points_back(&self) -> bool {
        let size = power(self.depth);
        self.marks[size / 2 + 1..size].contains(&true)
    }

    fn is_empty(&self) -> bool {
        !self.marks[..power(self.depth)].contains(&true)
    }

    /// A set without vectors stays one, with a loop more after a section.
    pub fn after(self, step: Step) -> DirectionSet {
        if self.is_empty() {
            let more = matches!(step, Step::Section { .. }) as usize;
            return DirectionSet {
                depth: self.depth + more,
                ..self
            };
        }
        match step {
            Step::Exchange { a } => self.exchanged(a),
            Step::Reversal { a } => self.reversed(a),
            Step::Skew { a, b, c } => self.skewed(a, b, c == 1),
            Step::Section { a, .. } => self.sectioned(a),
        }
    }

    fn exchanged(self, a: usize) -> DirectionSet {
        let (mut new, low) = ([false; 729], power(self.depth - 2 - a));
        for high in 0..power(a) {
            for (x, y) in pairs() {
                let (to, from) = (((high * 3 + x) * 3 + y) * low, ((high * 3 + y) * 3 + x) * low);
                new[to..to + low].copy_from_slice(&self.marks[from..from + low]);
            }
        }
        DirectionSet { marks: new, ..self }
    }

    fn reversed(self, a: usize) -> DirectionSet {
        let (mut new, low) = ([false; 729], power(self.depth - 1 - a));
        for high in 0..power(a) {
            for x in 0..3 {
                let (to, from) = ((high * 3 + x) * low, (high * 3 + 2 - x) * low);
                new[to..to + low].copy_from_slice(&self.marks[from..from + low]);
            }
        }
        DirectionSet { marks: new, ..self }
    }

    /// The sign at b becomes that of its sum with the sign at a, or all three where that is unknown.
    fn skewed(self, a: usize, b: usize, plus: bool) -> DirectionSet {
        let (mut new, low) = ([false; 729], power(self.depth - 1 - b));
        for high in 0..power(b) {
            let at_a = sign_at(high, b, a);
            let added = if plus { at_a } else { 2 - at_a };
            for (old, sum) in pairs().filter(|(old, sum)| may_be(*old, added, *sum)) {
                let (to, from) = ((high * 3 + sum) * low, (high * 3 + old) * low);
                for at in 0..low {
                    new[to + at] |= self.marks[from + at];
                }
            }
        }
        DirectionSet { marks: new, ..self }
    }

    /// The sign at a comes from the two of section and element: the section's, or the element's where that is =.
    fn sectioned(self, a: usize) -> DirectionSet {
        let (mut new, low) = ([false; 729], power(self.depth - 1 - a));
        for high in 0..power(a) {
            for (x, y) in pairs() {
                let old = if x == 1 { y } else { x };
                let (to, from) = (((high * 3 + x) * 3 + y) * low, (high * 3 + old) * low);
                new[to..to + low].copy_from_slice(&self.marks[from..from + low]);
            }
        }
        DirectionSet {
            marks: new,
            depth: self.depth + 1,
        }
    }
}

fn pairs() -> impl Iterator<Item = (usize, usize)> {
    (0..3).flat_map(|x| (0..3).map(move |y| (x, y)))
}

/// Whether two numbers with these signs can have a sum with that one.
fn may_be(one: usize, other: usize, sum: usize) -> bool {
    match (one, other) {
        (1, sign) | (sign, 1) => sum == sign,
        _ => one != other || sum == one,
    }
}

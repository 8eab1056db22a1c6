//! The lines of a nest without its points. Those of its corner, or of its centre, are among them; where Banerjee's inequalities allow no others,
//! they are all.

use std::array::from_fn;

use crate::dependence::{Lines, lines_at, pairs, uses};
use crate::directions::{power, sign_at};
use crate::points::points_within;
use crate::quick::gcd;
use crate::ranges::{Range, Ranges};
use crate::ticket::{Nest, Subscript};

/// How many values a loop of a part has after the first: at most 81 points are left.
fn places(depth: usize) -> i64 {
    match depth {
        1 => 63,
        2 => 7,
        3 => 3,
        _ => 2,
    }
}

struct Vector<const D: usize> {
    number: usize,
    signs: [usize; D],
}

/// The vectors of an earlier source, and that of = alone at the end. A sign other than = wants two values.
fn vectors<const D: usize>(ranges: &Ranges) -> Vec<Vector<D>> {
    let all = (0..=power(D) / 2).map(|number| Vector {
        number,
        signs: from_fn(|k| sign_at(number, D, k)),
    });
    let can_be = |vector: &Vector<D>| (0..D).all(|k| vector.signs[k] == 1 || ranges[k].least < ranges[k].greatest);
    all.filter(can_be).collect()
}

/// What the terms of one loop can differ by where the source's index is less than the sink's, the same, and greater.
fn terms(source: i64, sink: i64, range: Range) -> [Range; 3] {
    let Range { least, greatest } = range;
    let at = |x: i64, y: i64| source * x - sink * y;
    [
        Range::only(at(least, least + 1))
            .with(at(least, greatest))
            .with(at(greatest - 1, greatest)),
        Range::only(at(least, least)).with(at(greatest, greatest)),
        Range::only(at(least + 1, least))
            .with(at(greatest, least))
            .with(at(greatest, greatest - 1)),
    ]
}

/// The subscript of a source less that of a sink.
struct Difference<const D: usize> {
    constant: i64,
    terms: [[Range; 3]; D],
}

impl<const D: usize> Difference<D> {
    fn new(source: &Subscript, sink: &Subscript, ranges: &Ranges) -> Difference<D> {
        Difference {
            constant: source.constant - sink.constant,
            terms: from_fn(|k| terms(source.row[k], sink.row[k], ranges[k])),
        }
    }

    /// Whether it leaps over 0 at iterations that have the vector. The terms of the outer loops sum to a multiple of the divisor of their coefficients.
    fn leaps(&self, divisors: &[u64; D], vector: &Vector<D>) -> bool {
        let mut inner = Range::only(self.constant);
        (0..D).rev().any(|k| {
            let skips = inner.skips(divisors[k] as i64);
            inner = inner + self.terms[k][vector.signs[k]];
            skips
        })
    }

    /// Whether it can be 0 at iterations that have the vector.
    fn may_vanish(&self, vector: &Vector<D>) -> bool {
        let sum = (0..D).fold(Range::only(self.constant), |sum, k| sum + self.terms[k][vector.signs[k]]);
        sum.contains(0)
    }
}

/// Of the coefficients of the first loop, of the first two and so on, the greatest common divisor.
fn divisors<const D: usize>(source: &Subscript, sink: &Subscript) -> [u64; D] {
    let mut divisor = 0;
    from_fn(|k| {
        divisor = [source, sink].iter().fold(divisor, |g, one| gcd(one.row[k].unsigned_abs(), g));
        divisor
    })
}

fn total(subscripts: &[Subscript]) -> Subscript {
    subscripts.iter().fold(Subscript::default(), |sum, one| Subscript {
        constant: sum.constant + one.constant,
        row: from_fn(|k| sum.row[k] + one.row[k]),
    })
}

/// Whether each vector is ruled out: by one dimension, by the sum of all, or since one dimension leaps over 0.
fn are_impossible<const D: usize>(mut vectors: Vec<&Vector<D>>, source: &[Subscript], sink: &[Subscript], ranges: &Ranges) -> bool {
    let dimensions = || source.iter().zip(sink);
    let mut rules_out = |source: &Subscript, sink: &Subscript| {
        let difference = Difference::new(source, sink, ranges);
        vectors.retain(|vector| difference.may_vanish(vector));
        vectors.is_empty()
    };
    if dimensions().any(|(source, sink)| rules_out(source, sink)) || source.len() > 1 && rules_out(&total(source), &total(sink)) {
        return true;
    }
    dimensions().any(|(source, sink)| {
        let (difference, divisors) = (Difference::new(source, sink, ranges), divisors(source, sink));
        vectors.retain(|vector| !difference.leaps(&divisors, vector));
        vectors.is_empty()
    })
}

/// Whether every vector that a pair of accesses can have is marked.
fn cover<const D: usize>(lines: &Lines, nest: &Nest, ranges: &Ranges) -> bool {
    let (vectors, uses) = (vectors::<D>(ranges), Vec::from_iter(uses(nest)));
    pairs(nest, &uses).all(|pair| {
        let marks = &lines.marks[lines.block(&pair)];
        let unmarked: Vec<_> = vectors
            .iter()
            .filter(|vector| vector.number < pair.end(D) && !marks[vector.number])
            .collect();
        let [source, sink] = [pair.source, pair.sink].map(|one| nest.subscripts_of(&nest.accesses[one.access]));
        unmarked.is_empty() || are_impossible(unmarked, source, sink, ranges)
    })
}

/// Every line of a nest whose subscripts the ranges enclose, if the squeeze is tight for its corner or its centre.
pub fn lines(nest: &Nest, ranges: &Ranges) -> Option<Lines> {
    let depth = nest.loops.len();
    let squeezed = |first: fn(&Range, i64) -> i64| {
        let part = ranges.each_ref().map(|range| {
            let first = first(range, places(depth));
            (first, first + places(depth))
        });
        let lines = lines_at(nest, &points_within(&nest.loops, &part));
        at_depth!(depth, cover(&lines, nest, ranges)).then_some(lines)
    };
    let corner = |range: &Range, _: i64| range.least;
    let centre = |range: &Range, places: i64| (range.least + range.greatest - places).div_euclid(2);
    squeezed(corner).or_else(|| squeezed(centre))
}

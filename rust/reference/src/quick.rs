//! The quick test of two accesses.

use crate::points::{ceil_div, floor_div};
use crate::ticket::{Access, Affine, Limit, Loop, Nest};

/// Least and greatest value, in that order; the least may exceed the greatest.
type Span = (i64, i64);

fn cut(value: i64) -> i64 {
    value.clamp(-32_767, 32_767)
}

/// The least and the greatest of a constant plus coefficients times values within the spans.
fn span(constant: i64, terms: &[(i64, Span)]) -> Span {
    let (mut low, mut high) = (constant, constant);
    for (k, (least, greatest)) in terms {
        low += k * if *k > 0 { least } else { greatest };
        high += k * if *k > 0 { greatest } else { least };
    }
    (low, high)
}

fn span_of(e: &Affine, outside: &[Span]) -> Span {
    let terms = e.coefficients.iter().copied().zip(outside.iter().copied());
    span(e.constant, &terms.collect::<Vec<_>>())
}

/// Each loop's least and greatest value, outermost first, cut as they are found.
fn spans(loops: &[Loop]) -> Vec<Span> {
    let mut spans: Vec<Span> = vec![];
    for l in loops {
        let low = |limit: &Limit| ceil_div(span_of(&limit.e, &spans).0, limit.p);
        let high = |limit: &Limit| floor_div(span_of(&limit.e, &spans).1, limit.p);
        let least = l.lower.iter().map(low).max().expect("a lower limit");
        let greatest = l.upper.iter().map(high).min().expect("an upper limit");
        spans.push((cut(least), cut(greatest)));
    }
    spans
}

fn gcd(a: i64, b: i64) -> i64 {
    if b == 0 { a.abs() } else { gcd(b, a % b) }
}

/// One dimension: two subscripts, over two free iterations, never have one value.
fn differ(first: &Affine, second: &Affine, spans: &[Span]) -> bool {
    let constant = first.constant - second.constant;
    let plus = first.coefficients.iter().copied();
    let minus = second.coefficients.iter().map(|k| -k);
    let coefficients: Vec<i64> = plus.chain(minus).collect();
    let divisor = coefficients.iter().fold(0, |d, k| gcd(d, *k));
    let divides = if divisor == 0 { constant == 0 } else { constant % divisor == 0 };
    let spans = [spans, spans].concat();
    let terms: Vec<_> = coefficients.into_iter().zip(spans).collect();
    let (least, greatest) = span(constant, &terms);
    !divides || least > 0 || greatest < 0
}

pub fn apart(nest: &Nest, first: &Access, second: &Access) -> bool {
    let spans = spans(&nest.loops);
    let mut dimensions = first.subscripts.iter().zip(&second.subscripts);
    first.array != second.array
        || spans.iter().any(|(least, greatest)| least > greatest)
        || dimensions.any(|(one, other)| differ(one, other, &spans))
}

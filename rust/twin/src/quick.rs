//! The quick test of two accesses.

use crate::judgement::Admitted;
use crate::ranges::Ranges;
use crate::ticket::Subscript;
use crate::{Outcome, Refusal};

pub fn gcd(mut a: u64, mut b: u64) -> u64 {
    while b != 0 {
        (a, b) = (b, a % b);
    }
    a
}

/// Whether two subscripts are never equal, over two free iterations.
fn never_equal(u: &Subscript, v: &Subscript, ranges: &Ranges) -> bool {
    let divisor = u.row.iter().chain(&v.row).fold(0, |g, c| gcd(c.unsigned_abs(), g));
    let constant = u.constant - v.constant;
    let divides = match divisor {
        0 => constant == 0,
        g => constant.unsigned_abs().is_multiple_of(g),
    };
    !divides || !(u.over(ranges) - v.over(ranges)).contains(0)
}

/// Whether two accesses, numbered from 1, are apart.
pub fn test(admitted: &Admitted, first: u64, second: u64) -> Outcome<bool> {
    let nest = &admitted.ticket.nest;
    let access = |number: u64| {
        let place = usize::try_from(number).ok().and_then(|number| number.checked_sub(1));
        place.and_then(|place| nest.accesses.get(place)).ok_or(Refusal::new(4, 0))
    };
    let (first, second) = (access(first)?, access(second)?);
    if first.array != second.array {
        return Ok(true);
    }
    let ranges = admitted.ranges();
    let mut pairs = nest.subscripts_of(first).iter().zip(nest.subscripts_of(second));
    Ok(ranges.iter().any(|range| range.is_empty()) || pairs.any(|(u, v)| never_equal(u, v, &ranges)))
}

//! The ranges of the loops, and what they rule out without a walk over the points.

use std::ops::{Add, Sub};

use crate::points::{ceil_div, floor_div};
use crate::ticket::{Limit, Loop, MOST_LOOPS, Nest, Subscript};

/// Where an end is cut.
const MOST: i64 = 32_767;

#[derive(Clone, Copy, Default)]
pub struct Range {
    pub least: i64,
    pub greatest: i64,
}

/// One for each loop; those of loops that are not there are 0 to 0.
pub type Ranges = [Range; MOST_LOOPS];

impl Range {
    pub fn only(value: i64) -> Range {
        Range {
            least: value,
            greatest: value,
        }
    }

    pub fn with(self, value: i64) -> Range {
        Range {
            least: self.least.min(value),
            greatest: self.greatest.max(value),
        }
    }

    pub fn contains(self, value: i64) -> bool {
        self.least <= value && value <= self.greatest
    }

    /// Whether no multiple of a divisor lies in it; of 0 nothing is said.
    pub fn skips(self, divisor: i64) -> bool {
        divisor != 0 && floor_div(self.greatest, divisor) < ceil_div(self.least, divisor)
    }

    pub fn is_empty(self) -> bool {
        self.least > self.greatest
    }

    fn width(self) -> i64 {
        (self.greatest - self.least + 1).max(0)
    }

    fn is_uncut(self) -> bool {
        -MOST < self.least && self.greatest < MOST
    }
}

impl Add for Range {
    type Output = Range;

    fn add(self, other: Range) -> Range {
        Range {
            least: self.least + other.least,
            greatest: self.greatest + other.greatest,
        }
    }
}

impl Sub for Range {
    type Output = Range;

    fn sub(self, other: Range) -> Range {
        Range {
            least: self.least - other.greatest,
            greatest: self.greatest - other.least,
        }
    }
}

/// What a constant and coefficients times indices can sum to.
fn sum(constant: i64, row: &[i64], ranges: &[Range]) -> Range {
    row.iter().zip(ranges).fold(Range::only(constant), |sum, (c, range)| {
        let (low, high) = if *c > 0 {
            (range.least, range.greatest)
        } else {
            (range.greatest, range.least)
        };
        Range {
            least: sum.least + c * low,
            greatest: sum.greatest + c * high,
        }
    })
}

impl Subscript {
    pub fn over(&self, ranges: &Ranges) -> Range {
        sum(self.constant, &self.row, ranges)
    }
}

fn range(one: &Loop, outside: &[Range]) -> Range {
    let sum = |limit: &Limit| sum(limit.constant, &limit.row, outside);
    let least = one.lower.iter().map(|limit| ceil_div(sum(limit).least, limit.multiplier)).max();
    let greatest = one.upper.iter().map(|limit| floor_div(sum(limit).greatest, limit.multiplier)).min();
    Range {
        least: least.unwrap_or(MOST).clamp(-MOST, MOST),
        greatest: greatest.unwrap_or(-MOST).clamp(-MOST, MOST),
    }
}

/// Of every loop the least and the greatest index, from the ranges of the loops outside.
pub fn ranges(loops: &[Loop]) -> Ranges {
    let mut ranges = Ranges::default();
    for (k, one) in loops.iter().enumerate() {
        ranges[k] = range(one, &ranges[..k]);
    }
    ranges
}

/// Whether every subscript stays within its extent over the ranges.
pub fn enclose(ranges: &Ranges, nest: &Nest) -> bool {
    nest.accesses.iter().all(|access| {
        let extents = &nest.arrays[access.array].extents;
        nest.subscripts_of(access).iter().zip(extents).all(|(subscript, extent)| {
            let values = subscript.over(ranges);
            values.least >= 0 && values.greatest < *extent as i64
        })
    })
}

/// Whether no end was cut and the box of the ranges has at no depth more than so many points.
pub fn are_compact(ranges: &Ranges, most: i64) -> bool {
    let mut volume = 1;
    ranges.iter().all(|range| {
        volume *= range.width();
        range.is_uncut() && volume <= most
    })
}

//! Partial points, and the refusals that ask for them: 7, 8, 9 and 13.

use crate::answers::Refusal;
use crate::ticket::{Loop, Nest};

pub type Point = Vec<i64>;

pub fn floor_div(a: i64, p: i64) -> i64 {
    a.div_euclid(p)
}

pub fn ceil_div(a: i64, p: i64) -> i64 {
    -floor_div(-a, p)
}

/// From the largest lower to the smallest upper limit, rounded up and down; empty where the first exceeds the second.
pub fn range(l: &Loop, outside: &[i64]) -> (i64, i64) {
    let lower = l.lower.iter().map(|m| ceil_div(m.e.at(outside), m.p));
    let upper = l.upper.iter().map(|m| floor_div(m.e.at(outside), m.p));
    let (low, high) = (lower.max(), upper.min());
    (low.expect("a lower limit"), high.expect("an upper limit"))
}

/// What a loop's partial points are refused for.
pub enum Trouble {
    Far,
    Crowded,
}

/// The points of full depth in rising order, or the first loop, from 1, with a last index beyond ±`far` or more than `most` partial points.
pub fn points(loops: &[Loop], far: i64, most: i64) -> Result<Vec<Point>, (Trouble, usize)> {
    let mut partial: Vec<Point> = vec![vec![]];
    for (depth, l) in (1..).zip(loops) {
        let ranges = partial.iter().map(|outside| range(l, outside));
        let ranges: Vec<_> = ranges.collect();
        let full = ranges.iter().filter(|(low, high)| low <= high);
        if full.clone().any(|(low, high)| *low < -far || *high > far) {
            return Err((Trouble::Far, depth));
        }
        if full.map(|(low, high)| high - low + 1).sum::<i64>() > most {
            return Err((Trouble::Crowded, depth));
        }
        let mut deeper = vec![];
        for (outside, (low, high)) in partial.iter().zip(ranges) {
            for index in low..=high {
                deeper.push([outside.as_slice(), &[index]].concat());
            }
        }
        partial = deeper;
    }
    Ok(partial)
}

fn leaves_its_extent(nest: &Nest, statement: usize, point: &[i64]) -> bool {
    nest.statements[statement].accesses().any(|access| {
        let extents = &nest.arrays[access.array];
        let subscripts = access.subscripts.iter().map(|s| s.at(point));
        subscripts.zip(extents).any(|(s, extent)| s < 0 || s >= *extent)
    })
}

/// The ticket's own iterations, or 7, 8 or 9.
pub fn admit(nest: &Nest) -> Result<Vec<Point>, Refusal> {
    let points = points(&nest.loops, 32_767, 4096);
    let points = points.map_err(|(trouble, place)| match trouble {
        Trouble::Far => Refusal::new(7, place),
        Trouble::Crowded => Refusal::new(8, place),
    })?;
    for statement in 0..nest.statements.len() {
        if points.iter().any(|p| leaves_its_extent(nest, statement, p)) {
            return Err(Refusal::new(9, statement + 1));
        }
    }
    Ok(points)
}

/// The new nest's iterations, or 13.
pub fn spread(nest: &Nest) -> Result<Vec<Point>, Refusal> {
    let points = points(&nest.loops, 100_000, 65_536);
    points.map_err(|(_, place)| Refusal::new(13, place))
}

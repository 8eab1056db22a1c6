//! The points of a nest, depth by depth.

use crate::ticket::{Limit, Loop};

pub fn floor_div(a: i64, b: i64) -> i64 {
    a.div_euclid(b)
}

pub fn ceil_div(a: i64, b: i64) -> i64 {
    -(-a).div_euclid(b)
}

/// A constant and coefficients times indices.
fn affine(constant: i64, row: &[i64], indices: &[i32]) -> i64 {
    row.iter().zip(indices).fold(constant, |sum, (c, x)| sum + c * *x as i64)
}

fn least(limit: &Limit, outside: &[i32]) -> i64 {
    ceil_div(affine(limit.constant, &limit.row, outside), limit.multiplier)
}

fn greatest(limit: &Limit, outside: &[i32]) -> i64 {
    floor_div(affine(limit.constant, &limit.row, outside), limit.multiplier)
}

/// The first and the last index of a loop inside the indices outside.
fn range(one: &Loop, outside: &[i32]) -> (i64, i64) {
    let low = one.lower.iter().map(|limit| least(limit, outside)).max();
    let high = one.upper.iter().map(|limit| greatest(limit, outside)).min();
    (low.unwrap_or(i64::MAX), high.unwrap_or(i64::MIN))
}

pub enum Trouble {
    Far(usize),
    Crowded(usize),
}

/// How far an index may be and how many partial points a depth may have.
pub struct Bounds {
    pub far: i64,
    pub most: i64,
}

/// All points of one depth, row by row.
pub struct Points {
    pub depth: usize,
    pub count: usize,
    pub indices: Vec<i32>,
}

impl Points {
    fn root() -> Points {
        Points {
            depth: 0,
            count: 1,
            indices: Vec::new(),
        }
    }

    /// The points of a nest that has D loops.
    pub fn rows<const D: usize>(&self) -> &[[i32; D]] {
        self.indices.as_chunks().0
    }

    fn row(&self, x: usize) -> &[i32] {
        &self.indices[x * self.depth..][..self.depth]
    }

    /// The first and the last index of the next loop, for each point.
    fn ends(&self, one: &Loop) -> impl Iterator<Item = (i64, i64)> {
        (0..self.count).map(|x| range(one, self.row(x)))
    }

    /// Every point with every index of the next loop.
    fn inside(self, one: &Loop, bounds: &Bounds) -> Result<Space, Trouble> {
        let (mut total, mut far) = (0, false);
        let mut ends = Vec::with_capacity(self.count);
        for (low, high) in self.ends(one) {
            if low <= high {
                far |= low < -bounds.far || high > bounds.far;
                total += high - low + 1;
            }
            ends.push((low, high));
        }
        match (far, total > bounds.most) {
            (true, _) => Err(Trouble::Far(self.depth + 1)),
            (_, true) => Err(Trouble::Crowded(self.depth + 1)),
            _ => Ok(Space {
                outside: self,
                ends,
                count: total as usize,
            }),
        }
    }
}

/// All points of one depth, of which those of the depth above alone are listed: with each goes the range of the last loop.
pub struct Space {
    outside: Points,
    ends: Vec<(i64, i64)>,
    pub count: usize,
}

impl Space {
    pub fn points(&self) -> Points {
        let depth = self.outside.depth + 1;
        let mut indices = Vec::with_capacity(self.count * depth);
        for (x, (low, high)) in self.ends.iter().enumerate() {
            let row = self.outside.row(x);
            for index in *low..=*high {
                indices.extend_from_slice(row);
                indices.push(index as i32);
            }
        }
        let count = self.count;
        Points { depth, count, indices }
    }
}

/// The points of a nest within bounds, those of full depth not listed yet.
pub fn survey(loops: &[Loop], bounds: &Bounds) -> Result<Space, Trouble> {
    let mut space = Points::root().inside(&loops[0], bounds)?;
    for one in &loops[1..] {
        space = space.points().inside(one, bounds)?;
    }
    Ok(space)
}

/// The points of a nest within bounds whose indices are within these ends.
pub fn points_within(loops: &[Loop], part: &[(i64, i64)]) -> Points {
    loops.iter().zip(part).fold(Points::root(), |outside, (one, (first, last))| {
        let ends: Vec<_> = outside.ends(one).map(|(low, high)| (low.max(*first), high.min(*last))).collect();
        let count = ends.iter().map(|(low, high)| (high - low + 1).max(0) as usize).sum();
        Space { outside, ends, count }.points()
    })
}

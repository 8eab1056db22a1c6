//! Subscripts within their extents, and the element of every access at every point.

use crate::points::Points;
use crate::ticket::{Access, Nest, Subscript};

impl Subscript {
    fn at<const D: usize>(&self, point: &[i32; D]) -> i64 {
        (0..D).fold(self.constant, |sum, k| sum + self.row[k] * point[k] as i64)
    }
}

/// Whether a subscript of an access leaves its extent at some point.
fn strays<const D: usize>(nest: &Nest, access: &Access, points: &Points) -> bool {
    let extents = &nest.arrays[access.array].extents;
    nest.subscripts_of(access).iter().zip(extents).any(|(subscript, extent)| {
        let within = 0..*extent as i64;
        points.rows::<D>().iter().any(|point| !within.contains(&subscript.at(point)))
    })
}

fn first_stray_access<const D: usize>(nest: &Nest, points: &Points) -> Option<usize> {
    nest.accesses.iter().position(|access| strays::<D>(nest, access, points))
}

/// The number of the first statement with a subscript that leaves its extent.
pub fn first_stray(nest: &Nest, points: &Points) -> Option<usize> {
    let stray = at_depth!(points.depth, first_stray_access(nest, points))?;
    let owner = nest.statements.iter().rposition(|statement| statement.first <= stray);
    owner.map(|statement| statement + 1)
}

/// The place of an access in the store: affine, as its subscripts are.
fn place(nest: &Nest, access: &Access) -> Subscript {
    let array = &nest.arrays[access.array];
    let mut place = Subscript::default();
    for (subscript, extent) in nest.subscripts_of(access).iter().zip(&array.extents) {
        let extent = *extent as i64;
        place.constant = place.constant * extent + subscript.constant;
        for (sum, coefficient) in place.row.iter_mut().zip(&subscript.row) {
            *sum = *sum * extent + coefficient;
        }
    }
    place.constant += array.base as i64;
    place
}

/// The places of one access, point by point.
fn number<const D: usize>(nest: &Nest, access: &Access, points: &Points, out: &mut Vec<u16>) {
    let place = place(nest, access);
    out.extend(points.rows::<D>().iter().map(|point| place.at(point) as u16));
}

fn number_all<const D: usize>(nest: &Nest, points: &Points) -> Vec<u16> {
    let mut numbers = Vec::with_capacity(nest.accesses.len() * points.count);
    for access in &nest.accesses {
        number::<D>(nest, access, points, &mut numbers);
    }
    numbers
}

/// The places of all accesses, `points.count` for each.
pub fn numbers(nest: &Nest, points: &Points) -> Vec<u16> {
    at_depth!(points.depth, number_all(nest, points))
}

//! The iterations of a nest, and where steps move them.

use crate::nest::{Limit, Nest, Step};

/// The iterations in the nest's own order.
pub fn points(nest: &Nest) -> Vec<Vec<i64>> {
    let mut level = vec![Vec::new()];
    for l in &nest.loops {
        let mut next = Vec::new();
        for outer in level {
            let lower = l
                .lower
                .iter()
                .map(|limit| -(-value(limit, &outer)).div_euclid(i64::from(limit.multiplier)))
                .max();
            let upper = l
                .upper
                .iter()
                .map(|limit| value(limit, &outer).div_euclid(i64::from(limit.multiplier)))
                .min();
            for index in lower.unwrap_or(0)..=upper.unwrap_or(-1) {
                next.push([outer.as_slice(), &[index]].concat());
            }
        }
        level = next;
    }
    level
}

fn value(limit: &Limit, outer: &[i64]) -> i64 {
    affine(limit.constant, &limit.coefficients, outer)
}

pub fn affine(constant: i16, coefficients: &[i16], point: &[i64]) -> i64 {
    i64::from(constant) + coefficients.iter().zip(point).map(|(&c, index)| i64::from(c) * index).sum::<i64>()
}

/// Where the steps move each iteration.
pub fn moved(points: &[Vec<i64>], steps: &[Step]) -> Vec<Vec<i64>> {
    let mut points = points.to_vec();
    for step in steps {
        points.iter_mut().for_each(|point| apply(*step, point));
    }
    points
}

fn apply(step: Step, point: &mut Vec<i64>) {
    let place = |number: i16| number as usize - 1;
    match step {
        Step::Exchange { outer, inner } => point.swap(place(outer), place(inner)),
        Step::Reverse { at } => point[place(at)] = -point[place(at)],
        Step::Skew { outer, inner, by } => point[place(inner)] += i64::from(by) * point[place(outer)],
        Step::Section { at, width } => {
            let (index, width) = (point[place(at)], i64::from(width));
            point[place(at)] = index.div_euclid(width);
            point.insert(place(at) + 1, index.rem_euclid(width));
        }
        Step::Move { from, to } => {
            let index = point.remove(place(from));
            point.insert(place(to), index);
        }
    }
}

/// The place of each iteration in the order of the moved ones.
pub fn ranks(points: &[Vec<i64>]) -> Vec<usize> {
    let mut order: Vec<usize> = (0..points.len()).collect();
    order.sort_by(|&a, &b| points[a].cmp(&points[b]));
    let mut ranks = vec![0; points.len()];
    for (rank, iteration) in order.into_iter().enumerate() {
        ranks[iteration] = rank;
    }
    ranks
}

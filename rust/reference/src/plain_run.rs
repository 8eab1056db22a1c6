//! The plain run: a machine fed any values, any rule for each statement, and a list of instances.

use crate::points::Point;
use crate::ticket::{Nest, Step};

/// A point of an order, and the original iteration that it stands for.
pub struct Turn {
    pub point: Point,
    pub original: Point,
}

/// One step undone.
fn undone(step: &Step, point: &mut Point) {
    match *step {
        Step::Exchange { a } => point.swap(a, a + 1),
        Step::Reversal { a } => point[a] = -point[a],
        Step::Skew { a, b, c } => point[b] -= c * point[a],
        Step::Section { a, width } => {
            let within = point.remove(a + 1);
            point[a] = width * point[a] + within;
        }
        Step::Circulation { .. } => step.stages().iter().rev().for_each(|exchange| undone(exchange, point)),
    }
}

/// The original iteration of a point after `steps`, undone last first.
pub fn original(steps: &[Step], point: &Point) -> Point {
    let mut original = point.clone();
    for step in steps.iter().rev() {
        undone(step, &mut original);
    }
    original
}

pub fn order(steps: &[Step], points: &[Point]) -> Vec<Turn> {
    let turns = points.iter().map(|point| Turn {
        point: point.clone(),
        original: original(steps, point),
    });
    turns.collect()
}

/// `rule` makes a value from the statement's number from 0, its reads in ticket order, and the original iteration.
pub fn plain_run<V: Copy>(nest: &Nest, order: &[Turn], rule: impl Fn(usize, &[V], &[i64]) -> V, values: &mut [V]) {
    for turn in order {
        for (number, statement) in nest.statements.iter().enumerate() {
            let reads = statement.reads.iter();
            let reads = reads.map(|access| values[nest.element(access, &turn.point)]);
            let reads: Vec<V> = reads.collect();
            let value = rule(number, &reads, &turn.original);
            values[nest.element(&statement.write, &turn.point)] = value;
        }
    }
}

//! Run: the new nest in its new order on a store, under the ticket's own rules.

use crate::answers::Judged;
use crate::plain_run::{order, plain_run};
use crate::ticket::{Statement, Step};

/// The value that rule 1, 2 or 3 makes.
pub fn value(statement: &Statement, reads: &[u32]) -> u32 {
    let constant = u32::try_from(statement.constant).expect("a constant of at least 0");
    match statement.rule {
        1 => reads.iter().fold(constant, |sum, read| sum.wrapping_add(*read)),
        2 => reads.iter().fold(constant, |most, read| most.max(*read)),
        3 => reads[0],
        rule => panic!("rule {rule} makes no value"),
    }
}

pub fn run(steps: &[Step], judged: &Judged, store: &mut [u32]) {
    let nest = &judged.nest;
    let turns = order(steps, &judged.points);
    let rule = |number: usize, reads: &[u32], _: &[i64]| value(&nest.statements[number], reads);
    plain_run(nest, &turns, rule, store);
}

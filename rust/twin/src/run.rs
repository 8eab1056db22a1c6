//! The run of a nest on a store.

use crate::elements::numbers;
use crate::judgement::NEW;
use crate::points::survey;
use crate::ticket::Nest;
use crate::{Outcome, Refusal};

/// What a statement stores, from the words that it reads.
fn value(rule: u8, constant: u32, mut reads: impl Iterator<Item = u32>) -> u32 {
    match rule {
        1 => reads.fold(constant, u32::wrapping_add),
        2 => reads.fold(constant, u32::max),
        _ => reads.next().unwrap_or(0),
    }
}

/// Refusals 15 and 16, then every statement at every point in order.
pub fn run(nest: &Nest, store: &mut [u32]) -> Outcome<()> {
    if let Some(opaque) = nest.statements.iter().position(|statement| statement.rule == 0) {
        return Err(Refusal::new(15, opaque + 1));
    }
    if store.len() != nest.elements() {
        return Err(Refusal::new(16, 0));
    }
    let Ok(space) = survey(&nest.loops, &NEW) else {
        unreachable!("the new nest is within bounds")
    };
    let points = space.points();
    let (numbers, count) = (numbers(nest, &points), points.count);
    for x in 0..count {
        for statement in &nest.statements {
            let at = |access: usize| numbers[access * count + x] as usize;
            let reads = (1..=statement.reads).map(|read| store[at(statement.first + read)]);
            let value = value(statement.rule, statement.constant, reads);
            store[at(statement.first)] = value;
        }
    }
    Ok(())
}

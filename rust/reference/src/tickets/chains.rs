//! Chains of steps, guided by what the nest allows or not.

use std::collections::BTreeSet;

use super::random::Random;
use crate::directions::{Vector, backwards, conflicts, mapped, vectors};
use crate::limits;
use crate::points::{Point, admit};
use crate::reason::traded;
use crate::ticket::{Nest, Step};

fn width(random: &mut Random) -> i64 {
    match random.weighted(&[70, 20, 10]) {
        0 => random.between(2, 5),
        1 => random.between(2, 64),
        _ => random.pick(&[2, 128, 255, 256]),
    }
}

/// How often each kind of step is tried: exchange, reversal, skew, section and circulation.
pub type Weights = [i64; 5];

/// A step that such a nest has loops for.
fn step(random: &mut Random, loops: usize, weights: Weights) -> Step {
    let [mut exchange, reversal, mut skew, mut section, mut circulation] = weights;
    if loops == 1 {
        (exchange, skew, circulation) = (0, 0, 0);
    }
    if loops == 6 {
        section = 0;
    }
    let a = random.below(loops);
    match random.weighted(&[exchange, reversal.max(1), skew, section, circulation]) {
        0 => Step::Exchange {
            a: random.below(loops - 1),
        },
        1 => Step::Reversal { a },
        2 => {
            let a = random.below(loops - 1);
            let b = random.between(a as i64 + 1, loops as i64 - 1) as usize;
            let c = random.pick(&[1, -1]);
            Step::Skew { a, b, c }
        }
        3 => Step::Section { a, width: width(random) },
        _ => {
            let other = random.below(loops - 1);
            let b = if other < a { other } else { other + 1 };
            Step::Circulation { a, b }
        }
    }
}

fn loops_after(step: &Step, loops: usize) -> usize {
    match step {
        Step::Section { .. } => loops + 1,
        _ => loops,
    }
}

/// So many steps of these weights.
pub type Part = (usize, Weights);

/// Steps of one part after another, whatever becomes of the nest.
pub fn free(random: &mut Random, loops: usize, parts: &[Part]) -> Vec<Step> {
    let mut loops = loops;
    let mut steps = vec![];
    for (count, weights) in parts {
        for _ in 0..*count {
            let next = step(random, loops, *weights);
            loops = loops_after(&next, loops);
            steps.push(next);
        }
    }
    steps
}

/// What is known of a nest on its way.
struct Way {
    nest: Nest,
    set: BTreeSet<Vector>,
}

impl Way {
    fn directions_after(&self, step: &Step) -> BTreeSet<Vector> {
        self.set.iter().flat_map(|v| mapped(step, v)).collect()
    }

    fn out_of_order(&self, step: &Step) -> bool {
        self.directions_after(step).iter().any(|v| backwards(v))
    }

    fn after(&self, step: &Step) -> Option<Way> {
        let set = self.directions_after(step);
        if set.iter().any(|v| backwards(v)) {
            return None;
        }
        let nest = limits::after(step, &self.nest).ok()?;
        Some(Way { nest, set })
    }
}

/// Steps that are accepted one after another, as far as some tries for each part find any, and the way behind them.
fn accepted_way(random: &mut Random, nest: &Nest, points: &[Point], parts: &[Part]) -> (Vec<Step>, Way) {
    let mut way = Way {
        nest: nest.clone(),
        set: vectors(&conflicts(nest, points)),
    };
    let mut steps = vec![];
    for (count, weights) in parts {
        let wanted = steps.len() + count;
        for _ in 0..12 {
            if steps.len() == wanted {
                break;
            }
            let next = step(random, way.nest.loops.len(), *weights);
            if let Some(further) = way.after(&next) {
                way = further;
                steps.push(next);
            }
        }
    }
    (steps, way)
}

/// Steps that are accepted one after another, as far as some tries for each part find any.
pub fn accepted(random: &mut Random, nest: &Nest, parts: &[Part]) -> Vec<Step> {
    match admit(nest) {
        Ok(points) => accepted_way(random, nest, &points, parts).0,
        Err(_) => free(random, nest.loops.len(), parts),
    }
}

/// Steps that are accepted, as far as some tries find any, and one that is then out of order: because pairs trade places, or by the table alone.
/// Nothing where no such step is found.
pub fn out_of_order(random: &mut Random, nest: &Nest, before: &[Part], last: Weights, by_table: bool) -> Option<Vec<Step>> {
    let points = admit(nest).ok()?;
    let (mut steps, way) = accepted_way(random, nest, &points, before);
    for _ in 0..12 {
        let refused = step(random, way.nest.loops.len(), last);
        if !way.out_of_order(&refused) {
            continue;
        }
        steps.push(refused);
        let mut pairs = 0;
        traded(nest, &points, &steps, |_| pairs += 1);
        if (pairs == 0) == by_table {
            return Some(steps);
        }
        steps.pop();
    }
    None
}

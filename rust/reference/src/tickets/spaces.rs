//! Loops of all shapes.

use super::random::Random;
use crate::ticket::{Affine, Limit, Loop};

fn limit(p: i64, constant: i64, coefficients: Vec<i64>) -> Limit {
    Limit {
        p,
        e: Affine { constant, coefficients },
    }
}

/// One lower and one upper limit with p 1 and no coefficients.
fn plain(low: i64, high: i64, outside: usize) -> Loop {
    Loop {
        lower: vec![limit(1, low, vec![0; outside])],
        upper: vec![limit(1, high, vec![0; outside])],
    }
}

fn coefficients(random: &mut Random, outside: usize, chance: i64) -> Vec<i64> {
    let one = |_| if random.percent(chance) { random.between(-2, 2) } else { 0 };
    (0..outside).map(one).collect()
}

fn multiplier(random: &mut Random) -> i64 {
    if random.percent(80) { 1 } else { random.between(2, 5) }
}

/// Further limits, mostly beyond the first one: `away` is −1 for lower limits and 1 for upper ones.
fn further(random: &mut Random, side: &mut Vec<Limit>, away: i64, outside: usize, naming: i64) {
    let p = random.between(1, 4);
    let constant = side[0].e.constant * p + away * random.between(0, 9);
    let coefficients = coefficients(random, outside, naming);
    let place = random.below(side.len() + 1);
    side.insert(place, limit(p, constant, coefficients));
}

/// A loop of few indices; `width` is about how many. `naming` is the chance in a hundred that a limit names an outer loop.
fn small_loop(random: &mut Random, outside: usize, width: i64, naming: i64) -> Loop {
    let p = multiplier(random);
    let low = random.between(-4, 4);
    let skewed = coefficients(random, outside, naming);
    let parallel = random.percent(50);
    let upper = if parallel {
        skewed.clone()
    } else {
        coefficients(random, outside, naming)
    };
    let least = if random.percent(4) { -2 } else { 0 };
    let high = low + p * random.between(least, width);
    Loop {
        lower: vec![limit(p, low, skewed)],
        upper: vec![limit(if parallel { p } else { 1 }, high, upper)],
    }
}

/// Up to some tens of iterations; triangular, empty, with several limits a side.
pub fn small(random: &mut Random) -> Vec<Loop> {
    let depth = 1 + random.weighted(&[20, 40, 28, 12]);
    let width = [9, 5, 3, 2][depth - 1];
    let naming = random.pick(&[0, 20, 60]);
    let mut loops = vec![];
    for outside in 0..depth {
        let mut l = small_loop(random, outside, width, naming);
        while l.lower.len() < 4 && random.percent(12) {
            further(random, &mut l.lower, -1, outside, naming);
        }
        while l.upper.len() < 4 && random.percent(12) {
            further(random, &mut l.upper, 1, outside, naming);
        }
        loops.push(l);
    }
    loops
}

/// Three or four loops of few indices, one limit a side.
pub fn deep(random: &mut Random) -> Vec<Loop> {
    let depth = random.between(3, 4) as usize;
    let naming = random.pick(&[0, 20, 60]);
    (0..depth).map(|outside| small_loop(random, outside, 2, naming)).collect()
}

/// Many limits a side, which an exchange multiplies.
pub fn many_limits(random: &mut Random) -> Vec<Loop> {
    let depth = random.between(2, 3) as usize;
    let mut loops = vec![];
    for outside in 0..depth {
        let mut l = small_loop(random, outside, 3, 70);
        for _ in 0..random.between(1, 3) {
            further(random, &mut l.lower, -1, outside, 90);
            if random.percent(85) {
                further(random, &mut l.upper, 1, outside, 90);
            }
        }
        loops.push(l);
    }
    loops
}

/// Four loops of four limits a side, and up to 81 iterations.
pub fn most_limits(random: &mut Random) -> Vec<Loop> {
    let naming = random.pick(&[0, 15]);
    let mut loops = vec![];
    for outside in 0..4 {
        let low = random.between(-2, 2);
        let mut l = plain(low, low + random.between(1, 2), outside);
        for _ in 0..3 {
            further(random, &mut l.lower, -1, outside, naming);
            further(random, &mut l.upper, 1, outside, naming);
        }
        loops.push(l);
    }
    loops
}

/// Few indices between limits of great numbers, which steps drive beyond ±32767.
pub fn great_numbers(random: &mut Random) -> Vec<Loop> {
    let depth = random.between(1, 4) as usize;
    let mut loops = vec![];
    for outside in 0..depth {
        let p = random.pick(&[1, 100, 127, 128, 1000, 8191, 10_922, 16_383, 32_767]);
        let (low, high) = (random.between(-1, 1), random.between(1, 3));
        let mut l = plain(low, high, outside);
        let great = |n: i64, by: i64| (n * p + by).clamp(-32_767, 32_767);
        let slack = random.between(0, 3);
        l.lower.push(limit(p, great(low, -slack), vec![0; outside]));
        l.upper.push(limit(p, great(high, slack), coefficients(random, outside, 30)));
        if outside > 0 && random.percent(40) {
            l.upper[0].e.coefficients[0] = random.pick(&[1, 100, 5000, 32_767]);
        }
        loops.push(l);
    }
    loops
}

/// Few indices far from 0, which skews drive beyond ±100,000.
pub fn far(random: &mut Random) -> Vec<Loop> {
    let depth = random.between(2, 3) as usize;
    let at = random.pick(&[20_000, 24_999, 25_000, 25_001, 30_000, 32_760, -25_000, -32_765]);
    let one = |outside| {
        let (low, more) = (at + random.between(-1, 1), random.between(0, 2));
        plain(low, low + more, outside)
    };
    (0..depth).map(one).collect()
}

/// A loop of few indices for each of the `outer` + 1 indices of the first loop. They rise or fall with it by more than 32,767 in all, so that the
/// difference of two is no word.
fn steep(random: &mut Random, outer: i64, outside: usize) -> Loop {
    let within = random.between(0, 2);
    let slope = random.between(32_767 / outer + 1, (65_534 - within) / outer);
    let first = random.between(-32_767, 32_767 - within - slope * outer);
    let mut coefficients = vec![0; outside];
    let rising = random.percent(50);
    coefficients[0] = if rising { slope } else { -slope };
    let low = if rising { first } else { first + slope * outer };
    Loop {
        lower: vec![limit(1, low, coefficients.clone())],
        upper: vec![limit(1, low + within, coefficients)],
    }
}

/// One loop at least is steep.
pub fn far_apart(random: &mut Random) -> Vec<Loop> {
    let depth = random.between(2, 4) as usize;
    let outer = random.between(3, 5);
    let certain = random.between(1, depth as i64 - 1) as usize;
    let mut loops = vec![plain(0, outer, 0)];
    for outside in 1..depth {
        loops.push(if outside == certain || random.percent(40) {
            steep(random, outer, outside)
        } else {
            small_loop(random, outside, 2, 0)
        });
    }
    loops
}

/// The last loop is empty, and an exchange of it spreads over many partial points.
pub fn spreading(random: &mut Random) -> Vec<Loop> {
    let outer = random.between(0, 11);
    let by = random.between(1, 4);
    let slope = random.between(1, 32_767 / (by * 4));
    let within = random.between(0, 3);
    let middle = Loop {
        lower: vec![limit(1, 0, vec![by])],
        upper: vec![limit(1, within, vec![by])],
    };
    let gap = if random.percent(80) { -1 } else { 0 };
    let last = Loop {
        lower: vec![limit(1, 0, vec![0, slope])],
        upper: vec![limit(1, gap, vec![0, slope])],
    };
    vec![plain(0, outer, 0), middle, last]
}

/// At or beyond ±32767.
pub fn at_the_edge(random: &mut Random) -> Vec<Loop> {
    let depth = random.between(1, 3) as usize;
    let mut loops = vec![];
    for outside in 0..depth {
        let sign = random.pick(&[-1, 1]);
        let (one, other) = (sign * random.between(32_764, 32_767), sign * random.between(32_764, 32_767));
        let mut l = plain(one.min(other), one.max(other), outside);
        if outside > 0 && random.percent(60) {
            let coefficient = random.pick(&[-2, -1, 1, 2]);
            for side in [&mut l.lower[0], &mut l.upper[0]] {
                side.e.coefficients[outside - 1] = coefficient;
                side.e.constant = random.between(-3, 3);
            }
        }
        loops.push(l);
    }
    loops
}

/// Loops of the given widths, each from `low` on.
fn box_of(widths: &[i64], low: i64) -> Vec<Loop> {
    let widths = widths.iter().enumerate();
    widths.map(|(outside, width)| plain(low, low + width - 1, outside)).collect()
}

const CROWDED: [&[i64]; 9] = [
    &[4097],
    &[1, 4097],
    &[64, 65],
    &[241, 17],
    &[16, 16, 17],
    &[3, 4096],
    &[8, 8, 8, 9],
    &[65_535],
    &[2, 65_535],
];

/// Some more than 4096 partial points, or wide beyond all bounds; perhaps with an empty loop inside.
pub fn crowded(random: &mut Random) -> Vec<Loop> {
    let widths = random.pick(&CROWDED);
    let low = if widths.contains(&65_535) { -32_767 } else { random.between(-9, 9) };
    let mut loops = box_of(widths, low);
    if loops.len() < 4 && random.percent(30) {
        loops.push(plain(0, -1, widths.len()));
    }
    loops
}

const LARGE: [&[i64]; 8] = [
    &[4096],
    &[64, 64],
    &[1, 4096],
    &[16, 16, 16],
    &[8, 8, 8, 8],
    &[240, 17],
    &[30, 40],
    &[7, 8, 9],
];

/// From some hundreds to 4096 iterations.
pub fn large(random: &mut Random) -> Vec<Loop> {
    let mut loops = box_of(random.pick(&LARGE), random.between(-3, 3));
    if loops.len() > 1 && random.percent(40) {
        loops[1].lower[0].e.coefficients[0] = 1;
    }
    loops
}

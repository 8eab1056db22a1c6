//! Arrays and statements that fit the iterations of given loops, mostly.

use super::random::Random;
use crate::points::{Point, points};
use crate::ticket::{Access, Affine, Loop, Nest, Statement, elements_of};

/// How much a body names.
#[derive(Clone, Copy)]
pub enum Body {
    /// Up to four statements of up to four reads.
    Any,
    /// Four arrays of three dimensions, four statements of four reads.
    Most,
    /// Few accesses, for nests of many iterations.
    Few,
    /// One write, of a different element in each iteration, so that no step is out of order.
    Free,
}

fn subscript(random: &mut Random, loops: usize) -> Affine {
    let mut coefficients = vec![0; loops];
    match random.weighted(&[12, 50, 18, 20]) {
        0 => {}
        1 => coefficients[random.below(loops)] = random.pick(&[1, 1, 1, -1, 2]),
        2 => {
            coefficients[random.below(loops)] += 1;
            coefficients[random.below(loops)] += random.pick(&[1, -1]);
        }
        _ => coefficients.iter_mut().for_each(|k| *k = random.between(-2, 2)),
    }
    Affine {
        constant: random.between(-2, 2),
        coefficients,
    }
}

fn access(random: &mut Random, loops: usize, arrays: &[usize]) -> Access {
    let array = random.below(arrays.len());
    let subscripts = (0..arrays[array]).map(|_| subscript(random, loops)).collect();
    Access { array, subscripts }
}

/// The same access, some elements away.
fn neighbour(random: &mut Random, access: &Access) -> Access {
    let mut near = access.clone();
    for subscript in &mut near.subscripts {
        subscript.constant += random.between(-1, 1);
    }
    near
}

fn statement(random: &mut Random, body: Body, loops: usize, arrays: &[usize], opaque: bool) -> Statement {
    let write = access(random, loops, arrays);
    let rule = if opaque { random.between(0, 3) } else { random.between(1, 3) };
    let mut count = match body {
        Body::Any => random.weighted(&[20, 40, 20, 12, 8]),
        Body::Most => 4,
        Body::Few | Body::Free => random.below(2),
    };
    if rule == 3 {
        count = count.max(1);
    }
    let read = |_| {
        if random.percent(55) {
            neighbour(random, &write)
        } else {
            access(random, loops, arrays)
        }
    };
    let reads = (0..count).map(read).collect();
    let constant = if rule == 3 {
        0
    } else {
        random.pick(&[0, 0, 1, 2, 7, 1000, 32_767])
    };
    Statement {
        rule,
        constant,
        write,
        reads,
    }
}

/// A(i), A(i,j) or A(i,j,k).
fn free(random: &mut Random, loops: usize) -> Statement {
    let index = |place| {
        let mut coefficients = vec![0; loops];
        coefficients[place] = 1;
        Affine { constant: 0, coefficients }
    };
    Statement {
        rule: random.between(1, 2),
        constant: random.between(0, 9),
        write: Access {
            array: 0,
            subscripts: (0..loops.min(3)).map(index).collect(),
        },
        reads: vec![],
    }
}

/// The values of one dimension of one array over all iterations, or nothing.
fn values(statements: &[Statement], array: usize, dimension: usize, points: &[Point]) -> Option<(i64, i64)> {
    let accesses = statements.iter().flat_map(|s| s.accesses()).filter(|access| access.array == array);
    let subscripts: Vec<&Affine> = accesses.map(|access| &access.subscripts[dimension]).collect();
    let values = points.iter().flat_map(|point| subscripts.iter().map(|s| s.at(point)));
    let (low, high) = (values.clone().min()?, values.max()?);
    Some((low, high))
}

/// Moves the subscripts of one array to begin at 0, and answers the extents that take them; subscripts that need too much become 0.
fn fit(random: &mut Random, statements: &mut [Statement], array: usize, dimensions: usize, points: &[Point]) -> Vec<i64> {
    let mut extents = vec![];
    for dimension in 0..dimensions {
        let span = values(statements, array, dimension, points);
        let (low, high) = span.unwrap_or_else(|| (random.between(-3, 3), random.between(4, 7)));
        let fits = high - low < 4096 && elements_of(&extents) * (high - low + 1) <= 4096 && low.abs() < 32_000;
        let accesses = statements
            .iter_mut()
            .flat_map(|s| s.accesses_mut())
            .filter(|access| access.array == array);
        for access in accesses {
            let subscript = &mut access.subscripts[dimension];
            if fits {
                subscript.constant -= low;
            } else {
                subscript.constant = 0;
                subscript.coefficients.fill(0);
            }
        }
        let slack = if random.percent(10) { random.between(1, 3) } else { 0 };
        extents.push(if fits { (high - low + 1 + slack).min(4096) } else { 1 });
    }
    extents
}

/// Spoils the fit: a subscript leaves its extent, or the arrays are overfull.
fn spoil(random: &mut Random, nest: &mut Nest) {
    let array = random.below(nest.arrays.len());
    let dimension = random.below(nest.arrays[array].len());
    let extent = &mut nest.arrays[array][dimension];
    match random.below(5) {
        0 => *extent = random.pick(&[4096, 4095, 1024]),
        1 => nest.arrays[array].fill(random.pick(&[26, 128, 129, 4096])),
        2 if *extent > 1 => *extent -= 1,
        _ => {
            let statement = random.below(nest.statements.len());
            let by = random.pick(&[-1, 1, 1, 2]);
            nest.statements[statement].write.subscripts[0].constant += by;
        }
    }
}

/// The iterations, or none where 7 or 8 would be given.
pub fn few_points(loops: &[Loop]) -> Vec<Point> {
    points(loops, 32_767, 4096).unwrap_or_default()
}

/// Every access names one element, so that all instances conflict.
fn onto_one_element(statements: &mut [Statement]) {
    for access in statements.iter_mut().flat_map(|s| s.accesses_mut()) {
        access.array = 0;
        for subscript in &mut access.subscripts {
            subscript.constant = 0;
            subscript.coefficients.fill(0);
        }
    }
}

/// Statements, and the dimensions of each array that they name.
fn body(random: &mut Random, depth: usize, body: Body) -> (Vec<Statement>, Vec<usize>) {
    let (arrays, statements) = match body {
        Body::Free => return (vec![free(random, depth)], vec![depth.min(3)]),
        Body::Any => (random.weighted(&[45, 30, 15, 10]), random.weighted(&[45, 30, 15, 10])),
        Body::Few => (random.below(2), random.below(2)),
        Body::Most => (3, 3),
    };
    let dimensions = |_| match body {
        Body::Most => 3,
        _ => 1 + random.weighted(&[45, 40, 15]),
    };
    let dimensions: Vec<usize> = (0..=arrays).map(dimensions).collect();
    let opaque = random.percent(12);
    let one = |_| statement(random, body, depth, &dimensions, opaque);
    let mut statements: Vec<Statement> = (0..=statements).map(one).collect();
    if matches!(body, Body::Most) && random.percent(40) {
        onto_one_element(&mut statements);
    }
    (statements, dimensions)
}

pub fn nest(random: &mut Random, loops: Vec<Loop>, kind: Body) -> Nest {
    let points = few_points(&loops);
    let (statements, dimensions) = body(random, loops.len(), kind);
    let mut nest = Nest {
        loops,
        arrays: vec![],
        statements,
    };
    for (array, dimensions) in dimensions.into_iter().enumerate() {
        let extents = fit(random, &mut nest.statements, array, dimensions, &points);
        nest.arrays.push(extents);
    }
    if random.percent(8) {
        spoil(random, &mut nest);
    }
    nest
}

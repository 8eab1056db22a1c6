//! Limits after a step, and the refusals 11 and 12 that look at them.

use crate::ticket::{Affine, Limit, Loop, Nest, Step};

/// The nest after a step, or the number of its refusal: after each exchange of a circulation 11 is asked, then 12.
pub fn after(step: &Step, nest: &Nest) -> Result<Nest, u8> {
    let mut new = nest.clone();
    for stage in step.stages() {
        new = match stage {
            Step::Exchange { a } => exchanged(&new, a),
            Step::Reversal { a } => reversed(&new, a),
            Step::Skew { a, b, c } => skewed(&new, a, b, c),
            Step::Section { a, width } => sectioned(&new, a, width),
            Step::Circulation { .. } => unreachable!("its stages are exchanges"),
        };
        if full(&new) {
            return Err(11);
        }
        if big(&new) {
            return Err(12);
        }
    }
    Ok(new)
}

/// Every limit of the loops deeper than loop a, and every subscript.
fn deeper_and_subscripts(nest: &mut Nest, a: usize, change: impl Fn(&mut Affine)) {
    for l in &mut nest.loops[a + 1..] {
        for limit in l.lower.iter_mut().chain(&mut l.upper) {
            change(&mut limit.e);
        }
    }
    nest.subscripts_mut().for_each(change);
}

fn negated(e: &Affine) -> Affine {
    Affine {
        constant: -e.constant,
        coefficients: e.coefficients.iter().map(|k| -k).collect(),
    }
}

fn reversed(nest: &Nest, a: usize) -> Nest {
    let mut new = nest.clone();
    let turned = |limits: &[Limit]| {
        let limits = limits.iter().map(|limit| Limit {
            p: limit.p,
            e: negated(&limit.e),
        });
        limits.collect::<Vec<_>>()
    };
    new.loops[a] = Loop {
        lower: turned(&nest.loops[a].upper),
        upper: turned(&nest.loops[a].lower),
    };
    deeper_and_subscripts(&mut new, a, |e| e.coefficients[a] *= -1);
    new
}

/// Old b = new b − c × a.
fn skewed(nest: &Nest, a: usize, b: usize, c: i64) -> Nest {
    let mut new = nest.clone();
    let inner = &mut new.loops[b];
    for limit in inner.lower.iter_mut().chain(&mut inner.upper) {
        limit.e.coefficients[a] += limit.p * c;
    }
    deeper_and_subscripts(&mut new, b, |e| {
        e.coefficients[a] -= e.coefficients[b] * c;
    });
    new
}

/// p·w·S ≥ e − p(w − 1), where `less` is w − 1, or p·w·S ≤ e, where it is 0.
fn outer_part(limits: &[Limit], width: i64, less: i64) -> Vec<Limit> {
    let limits = limits.iter().map(|limit| {
        let mut e = limit.e.clone();
        e.constant -= limit.p * less;
        Limit { p: limit.p * width, e }
    });
    limits.collect()
}

/// The limit `first` of E, then each old limit with w × S moved across.
fn inner_part(limits: &[Limit], width: i64, first: i64, outside: usize) -> Vec<Limit> {
    let first = Limit {
        p: 1,
        e: Affine {
            constant: first,
            coefficients: vec![0; outside + 1],
        },
    };
    let moved = limits.iter().map(|limit| {
        let mut moved = limit.clone();
        moved.e.coefficients.push(-limit.p * width);
        moved
    });
    std::iter::once(first).chain(moved).collect()
}

fn sectioned(nest: &Nest, a: usize, width: i64) -> Nest {
    let mut new = nest.clone();
    let old = &nest.loops[a];
    deeper_and_subscripts(&mut new, a, |e| {
        e.coefficients.insert(a, e.coefficients[a] * width);
    });
    new.loops[a] = Loop {
        lower: outer_part(&old.lower, width, width - 1),
        upper: outer_part(&old.upper, width, 0),
    };
    let within = Loop {
        lower: inner_part(&old.lower, width, 0, a),
        upper: inner_part(&old.upper, width, width - 1, a),
    };
    new.loops.insert(a + 1, within);
    new
}

/// A limit of J, the coefficient of I taken out of it.
struct Parted {
    p: i64,
    c: i64,
    rest: Affine,
}

fn parted(limit: &Limit) -> Parted {
    let mut rest = limit.e.clone();
    let c = rest.coefficients.pop().expect("a coefficient of I");
    Parted { p: limit.p, c, rest }
}

/// pqJ against qe′ + cf.
fn product(j: &Parted, i: &Limit) -> Limit {
    let Limit { p: q, e: f } = i;
    let terms = j.rest.coefficients.iter().zip(&f.coefficients);
    Limit {
        p: j.p * q,
        e: Affine {
            constant: q * j.rest.constant + j.c * f.constant,
            coefficients: terms.map(|(e, f)| q * e + j.c * f).collect(),
        },
    }
}

/// A side of J, now outside I: `same` is I's list of that side, `other` the opposite one.
fn outward(j: &[Limit], same: &[Limit], other: &[Limit]) -> Vec<Limit> {
    let mut limits = vec![];
    for j in j.iter().map(parted) {
        if j.c == 0 {
            limits.push(Limit { p: j.p, e: j.rest });
        } else {
            let combined = if j.c > 0 { same } else { other };
            limits.extend(combined.iter().map(|i| product(&j, i)));
        }
    }
    limits
}

/// A limit of J with c ≠ 0 solved for |c| × I: e′ − pJ for c < 0, pJ − e′ for c > 0.
fn solved(j: &Parted) -> Limit {
    let mut e = j.rest.clone();
    e.coefficients.push(-j.p);
    Limit {
        p: j.c.abs(),
        e: if j.c > 0 { negated(&e) } else { e },
    }
}

/// I, now inside J: its own limits, then those of J that name it.
fn inward(i: &Loop, j: &Loop) -> Loop {
    let mut new = i.clone();
    for limit in new.lower.iter_mut().chain(&mut new.upper) {
        limit.e.coefficients.push(0);
    }
    for j in j.lower.iter().map(parted).filter(|j| j.c != 0) {
        // cI ≤ pJ − e′, or |c|I ≥ e′ − pJ.
        let side = if j.c > 0 { &mut new.upper } else { &mut new.lower };
        side.push(solved(&j));
    }
    for j in j.upper.iter().map(parted).filter(|j| j.c != 0) {
        // cI ≥ pJ − e′, or |c|I ≤ e′ − pJ.
        let side = if j.c > 0 { &mut new.lower } else { &mut new.upper };
        side.push(solved(&j));
    }
    new
}

fn without_repeats(limits: &mut Vec<Limit>) {
    let mut kept: Vec<Limit> = vec![];
    for limit in limits.drain(..) {
        if !kept.contains(&limit) {
            kept.push(limit);
        }
    }
    *limits = kept;
}

fn exchanged(nest: &Nest, a: usize) -> Nest {
    let mut new = nest.clone();
    let (i, j) = (&nest.loops[a], &nest.loops[a + 1]);
    new.loops[a] = Loop {
        lower: outward(&j.lower, &i.lower, &i.upper),
        upper: outward(&j.upper, &i.upper, &i.lower),
    };
    new.loops[a + 1] = inward(i, j);
    for l in &mut new.loops[a..a + 2] {
        without_repeats(&mut l.lower);
        without_repeats(&mut l.upper);
    }
    deeper_and_subscripts(&mut new, a + 1, |e| e.coefficients.swap(a, a + 1));
    new
}

/// 11: a side of a loop has more than 16 limits.
fn full(nest: &Nest) -> bool {
    let mut loops = nest.loops.iter();
    loops.any(|l| l.lower.len() > 16 || l.upper.len() > 16)
}

/// 12: a number of the nest is beyond ±32767.
fn big(nest: &Nest) -> bool {
    let beyond = |n: &i64| n.abs() > 32_767;
    let big = |e: &Affine| beyond(&e.constant) || e.coefficients.iter().any(beyond);
    let limits = |l: &Loop| {
        let mut limits = l.lower.iter().chain(&l.upper);
        limits.any(|limit| beyond(&limit.p) || big(&limit.e))
    };
    let mut accesses = nest.statements.iter().flat_map(|s| s.accesses());
    nest.loops.iter().any(limits) || accesses.any(|access| access.subscripts.iter().any(big))
}

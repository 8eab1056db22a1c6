//! The limits of the two loops that an exchange makes of loop I at place a and loop J inside it.

use crate::ticket::{Limit, Loop, MOST_LIMITS, Row};

/// A side that is filled limit by limit; repeats are dropped.
#[derive(Default)]
struct Filling {
    full: bool,
    limits: Vec<Limit>,
}

impl Filling {
    fn push(&mut self, limit: Limit) {
        if self.limits.contains(&limit) {
            return;
        }
        if self.limits.len() == MOST_LIMITS {
            self.full = true;
        } else {
            self.limits.push(limit);
        }
    }
}

fn negative(row: &Row) -> Row {
    row.map(|x| -x)
}

/// A limit of J that has I, with a limit of I in I's place.
fn combined(a: usize, j: &Limit, i: &Limit) -> Limit {
    let (q, c) = (i.multiplier, j.row[a]);
    let mut row = [0; 6];
    for (k, place) in row[..a].iter_mut().enumerate() {
        *place = q * j.row[k] + c * i.row[k];
    }
    Limit {
        multiplier: j.multiplier * q,
        constant: q * j.constant + c * i.constant,
        row,
    }
}

/// A limit of J that has I, solved for I.
fn solved(a: usize, j: &Limit) -> Limit {
    let c = j.row[a];
    let mut limit = Limit {
        multiplier: c.abs(),
        constant: if c > 0 { -j.constant } else { j.constant },
        row: if c > 0 { negative(&j.row) } else { j.row },
    };
    limit.row[a] = if c > 0 { j.multiplier } else { -j.multiplier };
    limit
}

/// J's side outside: limits of I on the same side stand in where its coefficient is positive, else those of the other.
fn outer_side(a: usize, j: &[Limit], same: &[Limit], other: &[Limit]) -> Filling {
    let mut filling = Filling::default();
    for limit in j {
        match limit.row[a] {
            0 => filling.push(*limit),
            c => {
                for with in if c > 0 { same } else { other } {
                    filling.push(combined(a, limit, with));
                }
            }
        }
    }
    filling
}

/// I's side inside: its own limits, then those of J that have it: of J's lower side where `rises` gives their coefficient's sign.
fn inner_side(a: usize, own: &[Limit], j: &Loop, rises: bool) -> Filling {
    let mut filling = Filling::default();
    own.iter().for_each(|limit| filling.push(*limit));
    let lower = j.lower.iter().filter(|limit| limit.row[a] != 0 && (limit.row[a] > 0) == rises);
    let upper = j.upper.iter().filter(|limit| limit.row[a] != 0 && (limit.row[a] > 0) != rises);
    lower.chain(upper).for_each(|limit| filling.push(solved(a, limit)));
    filling
}

/// The two loops in their new places, and whether a side has too many limits.
pub fn exchanged(a: usize, i: &Loop, j: &Loop) -> ([Loop; 2], bool) {
    let sides = [
        outer_side(a, &j.lower, &i.lower, &i.upper),
        outer_side(a, &j.upper, &i.upper, &i.lower),
        inner_side(a, &i.lower, j, false),
        inner_side(a, &i.upper, j, true),
    ];
    let full = sides.iter().any(|side| side.full);
    let [outer_low, outer_up, inner_low, inner_up] = sides.map(|side| side.limits);
    let outer = Loop {
        lower: outer_low,
        upper: outer_up,
    };
    let inner = Loop {
        lower: inner_low,
        upper: inner_up,
    };
    ([outer, inner], full)
}

//! A step taken on a nest, with the tests of refusals 11 and 12.

use std::mem::swap;

use crate::exchange::exchanged;
use crate::ticket::{Limit, Loop, MOST_LIMITS, Nest, Row, Step};

const MOST: i64 = 32_767;

impl Loop {
    fn limits_mut(&mut self) -> impl Iterator<Item = &mut Limit> {
        self.lower.iter_mut().chain(&mut self.upper)
    }
}

impl Nest {
    /// The coefficients of all limits from loop `inside` on, and of all subscripts.
    fn change_rows(&mut self, inside: usize, change: impl Fn(&mut Row)) {
        for one in &mut self.loops[inside..] {
            one.limits_mut().for_each(|limit| change(&mut limit.row));
        }
        self.subscripts.iter_mut().for_each(|subscript| change(&mut subscript.row));
    }

    fn exchange(&mut self, a: usize) -> bool {
        let (loops, full) = exchanged(a, &self.loops[a], &self.loops[a + 1]);
        self.loops.splice(a..a + 2, loops);
        self.change_rows(a + 2, |row| row.swap(a, a + 1));
        full
    }

    fn reverse(&mut self, a: usize) {
        let one = &mut self.loops[a];
        swap(&mut one.lower, &mut one.upper);
        for limit in one.limits_mut() {
            limit.constant = -limit.constant;
            limit.row = limit.row.map(|x| -x);
        }
        self.change_rows(a + 1, |row| row[a] = -row[a]);
    }

    fn skew(&mut self, a: usize, b: usize, c: i64) {
        for limit in self.loops[b].limits_mut() {
            limit.row[a] += c * limit.multiplier;
        }
        self.change_rows(b + 1, |row| row[a] -= c * row[b]);
    }

    fn section(&mut self, a: usize, width: i64) -> bool {
        self.change_rows(a + 1, |row| {
            row.copy_within(a..5, a + 1);
            row[a] *= width;
        });
        let old = &self.loops[a];
        let section = Loop {
            lower: old.lower.iter().map(|limit| section_limit(limit, width, width - 1)).collect(),
            upper: old.upper.iter().map(|limit| section_limit(limit, width, 0)).collect(),
        };
        let element = Loop {
            lower: element_side(&old.lower, a, width, 0),
            upper: element_side(&old.upper, a, width, width - 1),
        };
        let full = element.lower.len().max(element.upper.len()) > MOST_LIMITS;
        self.loops.splice(a..a + 1, [section, element]);
        full
    }

    /// Takes the step; whether a side has too many limits.
    pub fn take(&mut self, step: Step) -> bool {
        match step {
            Step::Exchange { a } => return self.exchange(a),
            Step::Reversal { a } => self.reverse(a),
            Step::Skew { a, b, c } => self.skew(a, b, c),
            Step::Section { a, width } => return self.section(a, width),
        }
        false
    }

    /// Whether all numbers are within ±32767.
    pub fn is_small(&self) -> bool {
        let small = |x: &i64| (-MOST..=MOST).contains(x);
        let limit = |l: &Limit| small(&l.multiplier) && small(&l.constant) && l.row.iter().all(small);
        let limits = |one: &Loop| one.lower.iter().chain(&one.upper).all(limit);
        self.loops.iter().all(limits) && self.subscripts.iter().all(|s| small(&s.constant) && s.row.iter().all(small))
    }
}

fn section_limit(limit: &Limit, width: i64, less: i64) -> Limit {
    Limit {
        multiplier: limit.multiplier * width,
        constant: limit.constant - limit.multiplier * less,
        row: limit.row,
    }
}

fn element_side(old: &[Limit], a: usize, width: i64, end: i64) -> Vec<Limit> {
    let first = Limit {
        multiplier: 1,
        constant: end,
        row: [0; 6],
    };
    let moved = old.iter().map(|limit| {
        let mut limit = *limit;
        limit.row[a] = -limit.multiplier * width;
        limit
    });
    std::iter::once(first).chain(moved).collect()
}

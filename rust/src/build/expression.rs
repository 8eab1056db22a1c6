//! Affine expressions of indices, and limits made of them.

use super::{BuildError, error};
use crate::nest::Limit;
use std::ops::{Add, Mul, Neg, Sub};

/// The loops that expressions of a builder can name.
pub(super) const LOOPS: usize = 8;

/// An affine expression of the indices of one builder's loops.
#[derive(Clone, Copy, PartialEq, Eq, Debug, Hash, Default)]
pub struct Expression {
    constant: i32,
    coefficients: [i32; LOOPS],
}

/// A limit: an expression divided by a whole number.
#[derive(Clone, Copy, PartialEq, Eq, Debug, Hash)]
pub struct Bound {
    expression: Expression,
    multiplier: i16,
}

impl Expression {
    /// The index of a loop, from 0. A loop past those that can be named is caught in the end.
    pub(super) fn index(place: usize) -> Expression {
        let mut index = Expression::default();
        if let Some(coefficient) = index.coefficients.get_mut(place) {
            *coefficient = 1;
        }
        index
    }

    /// The limit that divides this by a whole number.
    pub fn over(self, multiplier: i16) -> Bound {
        Bound {
            expression: self,
            multiplier,
        }
    }

    fn map(self, other: Expression, f: fn(i32, i32) -> i32) -> Expression {
        let coefficients = std::array::from_fn(|n| f(self.coefficients[n], other.coefficients[n]));
        Expression {
            constant: f(self.constant, other.constant),
            coefficients,
        }
    }

    /// The constant and the coefficients of the given count of loops.
    pub(super) fn words(&self, loops: usize) -> Result<(i16, Vec<i16>), BuildError> {
        let word = |number: i32| i16::try_from(number).or_else(|_| error(format!("{number} is beyond the 16 bits of a word")));
        if let Some(inner) = (loops..LOOPS).find(|&n| self.coefficients[n] != 0) {
            return error(format!("an expression names loop {}, and {loops} loops are outside it", inner + 1));
        }
        let coefficients = self.coefficients[..loops]
            .iter()
            .map(|&number| word(number))
            .collect::<Result<_, _>>()?;
        Ok((word(self.constant)?, coefficients))
    }
}

impl Bound {
    pub(super) fn limit(&self, outside: usize) -> Result<Limit, BuildError> {
        let (constant, coefficients) = self.expression.words(outside)?;
        Ok(Limit {
            multiplier: self.multiplier,
            constant,
            coefficients,
        })
    }
}

impl From<i32> for Expression {
    fn from(constant: i32) -> Expression {
        Expression {
            constant,
            ..Expression::default()
        }
    }
}

impl From<Expression> for Bound {
    fn from(expression: Expression) -> Bound {
        expression.over(1)
    }
}

impl From<i32> for Bound {
    fn from(constant: i32) -> Bound {
        Expression::from(constant).over(1)
    }
}

/// What can stand on one side of a loop: a number, an expression, a limit, or several of one kind.
pub trait IntoBounds {
    /// The limits, in their order.
    fn into_bounds(self) -> Vec<Bound>;
}

impl<T: Into<Bound>> IntoBounds for T {
    fn into_bounds(self) -> Vec<Bound> {
        vec![self.into()]
    }
}

impl<T: Into<Bound>, const N: usize> IntoBounds for [T; N] {
    fn into_bounds(self) -> Vec<Bound> {
        self.into_iter().map(Into::into).collect()
    }
}

impl<T: Into<Expression>> Add<T> for Expression {
    type Output = Expression;
    fn add(self, other: T) -> Expression {
        self.map(other.into(), i32::saturating_add)
    }
}

impl<T: Into<Expression>> Sub<T> for Expression {
    type Output = Expression;
    fn sub(self, other: T) -> Expression {
        self.map(other.into(), i32::saturating_sub)
    }
}

impl Neg for Expression {
    type Output = Expression;
    fn neg(self) -> Expression {
        Expression::default() - self
    }
}

impl Mul<Expression> for i32 {
    type Output = Expression;
    fn mul(self, expression: Expression) -> Expression {
        let scaled = expression.coefficients.map(|number| number.saturating_mul(self));
        Expression {
            constant: expression.constant.saturating_mul(self),
            coefficients: scaled,
        }
    }
}

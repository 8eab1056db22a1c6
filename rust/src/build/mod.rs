//! A builder of nests, with expressions of indices that read as they are written on paper.

mod expression;

pub use expression::{Bound, Expression, IntoBounds};

use crate::nest::{Access, Array, Loop, Nest, Rule, Statement, Step, Subscript};
use expression::LOOPS;
use std::error::Error;
use std::fmt;

/// Builds a [`Nest`]: arrays and loops first, outermost first, then statements, then steps.
///
/// ```
/// use hurkeztor::{NestBuilder, Ticket, judge};
///
/// let mut nest = NestBuilder::new();
/// let a = nest.array([4]);
/// let b = nest.array([2, 3]);
/// let i = nest.for_loop(0, 1);
/// let j = nest.for_loop(0, 2);
/// nest.first(a.at([i + j]), [b.at([i, j])]);
/// nest.exchange(1, 2);
///
/// let ticket = Ticket::from_nest(&nest.finish()?)?;
/// assert_eq!(judge(&ticket).unwrap_err().to_string(), "refused 10 at step 1, out of order");
/// # Ok::<(), Box<dyn std::error::Error>>(())
/// ```
///
/// One step moves a loop across several:
///
/// ```
/// use hurkeztor::{NestBuilder, Ticket, write};
///
/// let mut nest = NestBuilder::new();
/// let a = nest.array([2, 3, 4]);
/// let i = nest.for_loop(0, 1);
/// let j = nest.for_loop(0, 2);
/// let k = nest.for_loop(0, 3);
/// nest.sum(a.at([i, j, k]), [], 1);
/// nest.move_loop(1, 3);
///
/// let new = write(&Ticket::from_nest(&nest.finish()?)?)?.nest()?;
/// assert_eq!(new.loops[0].upper[0].constant, 2);
/// assert_eq!(new.loops[2].upper[0].constant, 1);
/// # Ok::<(), Box<dyn std::error::Error>>(())
/// ```
///
/// Several limits stand in an array; `over` divides one, rounded up below and down above:
///
/// ```
/// use hurkeztor::{Expression, NestBuilder};
///
/// let mut nest = NestBuilder::new();
/// let a = nest.array([10, 10]);
/// let i = nest.for_loop(0, 9);
/// let j = nest.for_loop([Expression::from(0).over(1), i.over(2)], [Expression::from(3).over(1), (2 * i + 1).over(3)]);
/// nest.sum(a.at([i, j]), [a.at([i, j])], 1);
/// assert!(nest.finish()?.to_string().contains("for j = max(0, i/2) to min(3, (2*i+1)/3)"));
/// # Ok::<(), hurkeztor::BuildError>(())
/// ```
#[derive(Clone, Debug, Default)]
pub struct NestBuilder {
    dimensions: Vec<Vec<i16>>,
    loops: Vec<(Vec<Bound>, Vec<Bound>)>,
    statements: Vec<(Rule, i16, Element, Vec<Element>)>,
    steps: Vec<Step>,
}

/// An array of a builder's nest.
#[derive(Clone, Copy, PartialEq, Eq, Debug, Hash)]
pub struct ArrayName {
    number: usize,
}

/// An element of an array, named by expressions.
#[derive(Clone, PartialEq, Eq, Debug, Hash)]
pub struct Element {
    array: usize,
    subscripts: Vec<Expression>,
}

/// What was built is no nest.
#[derive(Clone, PartialEq, Eq, Debug)]
pub struct BuildError {
    message: String,
}

impl NestBuilder {
    /// A nest of nothing yet.
    pub fn new() -> NestBuilder {
        NestBuilder::default()
    }

    /// Declares an array with these extents.
    pub fn array(&mut self, extents: impl Into<Vec<i16>>) -> ArrayName {
        self.dimensions.push(extents.into());
        ArrayName {
            number: self.dimensions.len(),
        }
    }

    /// Opens a loop inside those that are open, and answers its index.
    pub fn for_loop(&mut self, lower: impl IntoBounds, upper: impl IntoBounds) -> Expression {
        self.loops.push((lower.into_bounds(), upper.into_bounds()));
        Expression::index(self.loops.len() - 1)
    }

    /// A statement that stores the first read.
    pub fn first(&mut self, write: Element, reads: impl Into<Vec<Element>>) {
        self.statements.push((Rule::First, 0, write, reads.into()));
    }

    /// A statement that stores the sum of the reads and the constant.
    pub fn sum(&mut self, write: Element, reads: impl Into<Vec<Element>>, constant: i16) {
        self.statements.push((Rule::Sum, constant, write, reads.into()));
    }

    /// A statement that stores the largest of the reads and the constant.
    pub fn largest(&mut self, write: Element, reads: impl Into<Vec<Element>>, constant: i16) {
        self.statements.push((Rule::Largest, constant, write, reads.into()));
    }

    /// A statement whose rule is not told.
    pub fn opaque(&mut self, write: Element, reads: impl Into<Vec<Element>>) {
        self.statements.push((Rule::Opaque, 0, write, reads.into()));
    }

    /// Exchanges loop `outer` with loop `inner`, the next.
    pub fn exchange(&mut self, outer: i16, inner: i16) {
        self.steps.push(Step::Exchange { outer, inner });
    }

    /// Reverses a loop.
    pub fn reverse(&mut self, at: i16) {
        self.steps.push(Step::Reverse { at });
    }

    /// Skews loop `inner` by loop `outer`, forwards (1) or backwards (-1).
    pub fn skew(&mut self, outer: i16, inner: i16, by: i16) {
        self.steps.push(Step::Skew { outer, inner, by });
    }

    /// Sections a loop.
    pub fn section(&mut self, at: i16, width: i16) {
        self.steps.push(Step::Section { at, width });
    }

    /// Moves loop `from` to place `to`; those between close up.
    pub fn move_loop(&mut self, from: i16, to: i16) {
        self.steps.push(Step::Move { from, to });
    }

    /// The nest.
    ///
    /// # Errors
    ///
    /// Where an expression names a loop that is not outside, or has a number beyond 16 bits, or an element has not one subscript for each
    /// dimension.
    pub fn finish(&self) -> Result<Nest, BuildError> {
        let depth = self.loops.len();
        if depth > LOOPS {
            return error(format!("{depth} loops are more than the {LOOPS} that a builder takes"));
        }
        let mut nest = Nest {
            steps: self.steps.clone(),
            ..Nest::default()
        };
        nest.arrays
            .extend(self.dimensions.iter().map(|extents| Array { extents: extents.clone() }));
        for (outside, (lower, upper)) in self.loops.iter().enumerate() {
            let side = |bounds: &[Bound]| bounds.iter().map(|bound| bound.limit(outside)).collect::<Result<_, _>>();
            nest.loops.push(Loop {
                lower: side(lower)?,
                upper: side(upper)?,
            });
        }
        for (rule, constant, write, reads) in &self.statements {
            let reads = reads.iter().map(|read| self.access(read)).collect::<Result<_, _>>()?;
            nest.statements.push(Statement {
                rule: *rule,
                constant: *constant,
                write: self.access(write)?,
                reads,
            });
        }
        Ok(nest)
    }

    fn access(&self, element: &Element) -> Result<Access, BuildError> {
        let (array, given) = (element.array, element.subscripts.len());
        match self.dimensions.get(array - 1) {
            None => return error(format!("array {array} belongs to another builder")),
            Some(extents) if extents.len() != given => {
                return error(format!(
                    "array {array} has {} dimensions, and an access of it {given} subscripts",
                    extents.len()
                ));
            }
            Some(_) => {}
        }
        let subscripts = element.subscripts.iter().map(|expression| {
            let (constant, coefficients) = expression.words(self.loops.len())?;
            Ok(Subscript { constant, coefficients })
        });
        Ok(Access {
            array,
            subscripts: subscripts.collect::<Result<_, _>>()?,
        })
    }
}

impl ArrayName {
    /// The element with these subscripts.
    pub fn at(&self, subscripts: impl IntoIterator<Item = impl Into<Expression>>) -> Element {
        Element {
            array: self.number,
            subscripts: subscripts.into_iter().map(Into::into).collect(),
        }
    }
}

fn error<T>(message: String) -> Result<T, BuildError> {
    Err(BuildError { message })
}

impl fmt::Display for BuildError {
    fn fmt(&self, f: &mut fmt::Formatter<'_>) -> fmt::Result {
        f.write_str(&self.message)
    }
}

impl Error for BuildError {}

//! A loop nest with its proposed steps, as types.

use crate::text;
use std::fmt;
use std::str::FromStr;

/// A nest of loops around a body of statements, the arrays that they use, and the proposed steps: what a ticket describes.
///
/// A nest may hold more than a ticket is allowed to have (a fifth loop, an extent of 5000). The entries refuse the ticket then, and say
/// where.
///
/// Printed with `{}`, a nest is in the text form, which [`str::parse`] reads again:
///
/// ```
/// use hurkeztor::Nest;
/// let text = "\
/// array A(4)
/// array B(2, 3)
///
/// for i = 0 to 1
///   for j = 0 to 2
///     A(i+j) = B(i, j)
///
/// exchange 1 2
/// ";
/// let nest: Nest = text.parse()?;
/// assert_eq!(nest.loops.len(), 2);
/// assert_eq!(nest.to_string(), text);
/// # Ok::<(), hurkeztor::ParseError>(())
/// ```
#[derive(Clone, PartialEq, Eq, Debug, Hash, Default)]
pub struct Nest {
    /// The loops, outermost first.
    pub loops: Vec<Loop>,
    /// The arrays, numbered from 1 in this order.
    pub arrays: Vec<Array>,
    /// The statements of the innermost loop's body, numbered from 1 in this order.
    pub statements: Vec<Statement>,
    /// The steps, numbered from 1 in this order.
    pub steps: Vec<Step>,
}

/// A loop, which runs upwards by 1 from its largest lower limit to its smallest upper limit.
#[derive(Clone, PartialEq, Eq, Debug, Hash, Default)]
pub struct Loop {
    /// The limits that the index is not below.
    pub lower: Vec<Limit>,
    /// The limits that the index is not above.
    pub upper: Vec<Limit>,
}

/// One limit of a loop: `multiplier` × index is at least (a lower limit) or at most (an upper one) the value of the rest.
#[derive(Clone, PartialEq, Eq, Debug, Hash)]
pub struct Limit {
    /// What the index is multiplied by: 1 or more.
    pub multiplier: i16,
    /// The constant.
    pub constant: i16,
    /// One coefficient for each loop outside this one, outermost first.
    pub coefficients: Vec<i16>,
}

/// An array, of 1 to 3 dimensions.
#[derive(Clone, PartialEq, Eq, Debug, Hash, Default)]
pub struct Array {
    /// The extent of each dimension: subscripts run from 0 to the extent less 1.
    pub extents: Vec<i16>,
}

/// A statement of the body.
#[derive(Clone, PartialEq, Eq, Debug, Hash)]
pub struct Statement {
    /// How the value is made from the reads and the constant.
    pub rule: Rule,
    /// The constant; 0 under [`Rule::First`].
    pub constant: i16,
    /// The access that is written.
    pub write: Access,
    /// The accesses that are read, in this order.
    pub reads: Vec<Access>,
}

/// How a statement makes the value that it writes.
#[derive(Clone, Copy, PartialEq, Eq, Debug, Hash)]
pub enum Rule {
    /// Not told: the ticket can be judged and not run.
    Opaque,
    /// The sum modulo 2³² of the reads and the constant.
    Sum,
    /// The largest of the reads and the constant.
    Largest,
    /// The first read.
    First,
}

/// An element of an array that a statement names at each iteration.
#[derive(Clone, PartialEq, Eq, Debug, Hash)]
pub struct Access {
    /// The array's number, from 1.
    pub array: usize,
    /// One subscript for each dimension of the array.
    pub subscripts: Vec<Subscript>,
}

/// An affine function of the loops' indices.
#[derive(Clone, PartialEq, Eq, Debug, Hash, Default)]
pub struct Subscript {
    /// The constant.
    pub constant: i16,
    /// One coefficient for each loop, outermost first.
    pub coefficients: Vec<i16>,
}

/// A proposed step. Loops are numbered from 1, by their place when the step is reached.
#[derive(Clone, Copy, PartialEq, Eq, Debug, Hash)]
pub enum Step {
    /// Exchanges two neighbouring loops.
    Exchange {
        /// The outer of the two.
        outer: i16,
        /// The inner, one more.
        inner: i16,
    },
    /// Reverses a loop.
    Reverse {
        /// The loop.
        at: i16,
    },
    /// Adds an outer loop's index to an inner one's, or takes it away.
    Skew {
        /// The loop whose index is added.
        outer: i16,
        /// The loop that is changed.
        inner: i16,
        /// 1 or -1.
        by: i16,
    },
    /// Cuts a loop into sections.
    Section {
        /// The loop.
        at: i16,
        /// The sections' width, 2 to 256.
        width: i16,
    },
    /// Moves a loop to another place; those between close up. It is judged as the neighbouring exchanges that bring it there would be.
    Move {
        /// The loop.
        from: i16,
        /// Its new place, another one.
        to: i16,
    },
}

impl Nest {
    /// All accesses in ticket order: each statement's write, then its reads. Access number n is at n - 1.
    pub fn accesses(&self) -> impl Iterator<Item = &Access> {
        self.statements
            .iter()
            .flat_map(|statement| std::iter::once(&statement.write).chain(&statement.reads))
    }

    /// The total of elements of all arrays: the length of the store that a run takes.
    pub fn elements(&self) -> usize {
        self.arrays.iter().map(Array::elements).fold(0, usize::saturating_add)
    }

    /// The nest without its steps.
    pub fn without_steps(&self) -> Nest {
        Nest {
            steps: Vec::new(),
            ..self.clone()
        }
    }
}

impl Array {
    /// The count of elements.
    pub fn elements(&self) -> usize {
        self.extents
            .iter()
            .map(|&extent| usize::try_from(extent).unwrap_or(0))
            .fold(1, usize::saturating_mul)
    }
}

impl fmt::Display for Nest {
    fn fmt(&self, f: &mut fmt::Formatter<'_>) -> fmt::Result {
        f.write_str(&text::print(self, &text::Names::of(self)))
    }
}

impl fmt::Display for Step {
    fn fmt(&self, f: &mut fmt::Formatter<'_>) -> fmt::Result {
        match self {
            Step::Exchange { outer, inner } => write!(f, "exchange {outer} {inner}"),
            Step::Reverse { at } => write!(f, "reverse {at}"),
            Step::Skew { outer, inner, by } => write!(f, "skew {outer} {inner} by {by}"),
            Step::Section { at, width } => write!(f, "section {at} by {width}"),
            Step::Move { from, to } => write!(f, "move {from} to {to}"),
        }
    }
}

impl FromStr for Nest {
    type Err = text::ParseError;

    fn from_str(source: &str) -> Result<Nest, text::ParseError> {
        text::parse(source).map(|parsed| parsed.nest)
    }
}

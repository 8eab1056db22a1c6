//! The text form of a nest, and decimal words: parsed with the place of every word in the source, and printed.
//!
//! ```text
//! # first echo folded into bins
//! array A(4)
//! array B(2, 3)
//!
//! for i = 0 to 1
//!   for j = max(0, i) to min(2, (i+5)/2)
//!     A(i+j) = B(i, j)
//!
//! exchange 1 2
//! ```
//!
//! - One array, loop, statement or step stands on each line, in this order; blanks and indentation are free; `#` starts a comment.
//! - A limit is an affine expression of the indices outside (`2*i-1`; `2i-1` is the same), or one divided by a whole number, rounded up in a
//!   lower limit and down in an upper one. Several lower limits stand in `max( )`, several upper ones in `min( )`.
//! - Every statement stands inside the innermost loop. What stands to the right says the rule:
//!
//! | text | rule |
//! |---|---|
//! | `A(i) = B(i)`, `A(i) = first(B(i), C(i))` | the first read |
//! | `A(i) = B(i) + C(i) + 5`, `A(i) = B(i) + 0`, `A(i) = 5` | the sum |
//! | `A(i) = max(B(i), C(i), 5)` | the largest |
//! | `A(i) = opaque(B(i), C(i))` | not told |
//!
//! - Steps are `exchange 1 2`, `reverse 1`, `skew 1 2 by 1` (the index of loop 1 is added to that of loop 2; `by -1` takes it away),
//!   `section 1 by 4` and `move 1 to 3` (loop 1 goes to place 3, and loops 2 and 3 close up). Loops are numbered by their place when the step is
//!   reached.
//!
//! The parser refuses only what cannot be a ticket. A number out of its range makes a ticket that the entries refuse.

mod expression;
mod names;
mod parse;
mod print;
mod statement;
mod tokens;
mod words;

pub use names::Names;
pub use parse::parse;
pub use print::{print, print_access, print_pair};
pub use words::parse_words;

use crate::answers::{Place, Refusal};
use crate::nest::Nest;
use std::error::Error;
use std::fmt;

/// A nest that was read from a text, with where its parts came from.
#[derive(Clone, PartialEq, Eq, Debug)]
pub struct Parsed {
    /// The nest.
    pub nest: Nest,
    /// The names that the text gives to indices and arrays.
    pub names: Names,
    /// Where the words and parts of the ticket stand in the text.
    pub places: Places,
}

/// A piece of one line of a text. Lines and columns are counted from 1, columns in characters.
#[derive(Clone, Copy, PartialEq, Eq, Debug, Hash)]
pub struct Span {
    /// The line.
    pub line: usize,
    /// The column of the first character.
    pub column: usize,
    /// The count of characters.
    pub length: usize,
}

/// Where the words and parts of a ticket stand in the text that it was read from.
#[derive(Clone, PartialEq, Eq, Debug, Default)]
pub struct Places {
    /// Where each word comes from.
    pub words: Vec<Span>,
    /// Each loop.
    pub loops: Vec<Span>,
    /// Each statement.
    pub statements: Vec<Span>,
    /// Each step.
    pub steps: Vec<Span>,
}

impl Places {
    /// Where a refusal's place stands in the text. A loop of the new nest (number 13) stands nowhere: the last step is given for it.
    pub fn find(&self, refusal: &Refusal) -> Option<Span> {
        let nth = |spans: &[Span], n: u32| spans.get(usize::try_from(n).ok()?.checked_sub(1)?).copied();
        match refusal.place {
            Place::Word(n) => nth(&self.words, n),
            Place::Step(n) => nth(&self.steps, n),
            Place::Loop(_) if refusal.number == 13 => self.steps.last().copied(),
            Place::Loop(n) => nth(&self.loops, n),
            Place::Statement(n) => nth(&self.statements, n),
            Place::None => None,
        }
    }
}

/// A text that is no ticket.
#[derive(Clone, PartialEq, Eq, Debug)]
pub struct ParseError {
    /// Where reading stopped.
    pub span: Span,
    /// What is wrong, and what was expected.
    pub message: String,
}

impl ParseError {
    pub(crate) fn new(span: Span, message: impl Into<String>) -> ParseError {
        ParseError {
            span,
            message: message.into(),
        }
    }
}

impl fmt::Display for ParseError {
    fn fmt(&self, f: &mut fmt::Formatter<'_>) -> fmt::Result {
        write!(f, "{}:{}: {}", self.span.line, self.span.column, self.message)
    }
}

impl Error for ParseError {}

/// The line of a text that a span stands in, with the span marked below it.
///
/// ```
/// use hurkeztor::text::{Span, excerpt};
/// let span = Span { line: 2, column: 10, length: 3 };
/// assert_eq!(excerpt("array A(4)\nexchange 1 2\n", span), "  exchange 1 2\n           ^^^\n");
/// ```
pub fn excerpt(source: &str, span: Span) -> String {
    let line = source.lines().nth(span.line.saturating_sub(1)).unwrap_or("").replace('\t', " ");
    let before = " ".repeat(span.column.saturating_sub(1));
    format!("  {}\n  {before}{}\n", line.trim_end(), "^".repeat(span.length.max(1)))
}

//! A nest as the words of a ticket, and back.

mod decode;

pub(crate) use decode::decode;

use crate::nest::{Access, Limit, Nest, Rule, Step};
use std::error::Error;
use std::fmt;

/// A nest that has no words: its parts do not fit one another.
#[derive(Clone, PartialEq, Eq, Debug)]
pub struct ShapeError {
    message: String,
}

/// Words that describe no nest, not even one that is refused.
///
/// This is no judgement: [`crate::judge`] says why such a ticket is refused.
#[derive(Clone, PartialEq, Eq, Debug)]
pub struct WordsError {
    /// The word, from 1, at which reading stopped.
    pub word: usize,
    expected: &'static str,
}

impl fmt::Display for ShapeError {
    fn fmt(&self, f: &mut fmt::Formatter<'_>) -> fmt::Result {
        f.write_str(&self.message)
    }
}

impl fmt::Display for WordsError {
    fn fmt(&self, f: &mut fmt::Formatter<'_>) -> fmt::Result {
        write!(f, "word {}: expected {}", self.word, self.expected)
    }
}

impl Error for ShapeError {}
impl Error for WordsError {}

impl WordsError {
    pub(crate) fn half(word: usize) -> WordsError {
        WordsError {
            word,
            expected: "a whole word; half of one is there",
        }
    }
}

impl Nest {
    /// The words of the ticket that describes this nest.
    ///
    /// # Errors
    ///
    /// Where a limit has not one coefficient for each loop outside it, or an access not one subscript for each dimension of its array, with
    /// one coefficient for each loop.
    pub fn to_words(&self) -> Result<Vec<i16>, ShapeError> {
        let mut words = Vec::new();
        words.push(count(self.loops.len(), "loops")?);
        for (outside, l) in self.loops.iter().enumerate() {
            for side in [&l.lower, &l.upper] {
                limits(&mut words, side, outside)?;
            }
        }
        words.push(count(self.arrays.len(), "arrays")?);
        for array in &self.arrays {
            words.push(count(array.extents.len(), "dimensions")?);
            words.extend(&array.extents);
        }
        words.push(count(self.statements.len(), "statements")?);
        for statement in &self.statements {
            words.extend([statement.rule.number(), statement.constant]);
            self.access(&mut words, &statement.write)?;
            words.push(count(statement.reads.len(), "reads")?);
            for read in &statement.reads {
                self.access(&mut words, read)?;
            }
        }
        words.push(count(self.steps.len(), "steps")?);
        words.extend(self.steps.iter().flat_map(|step| step.words()));
        Ok(words)
    }

    fn access(&self, words: &mut Vec<i16>, access: &Access) -> Result<(), ShapeError> {
        let number = access.array;
        let Some(array) = number.checked_sub(1).and_then(|n| self.arrays.get(n)) else {
            return shape(format!("an access names array {number}, and there are {}", self.arrays.len()));
        };
        let (given, needed) = (access.subscripts.len(), array.extents.len());
        if given != needed {
            return shape(format!(
                "an access of array {number} has {given} subscripts, and the array {needed} dimensions"
            ));
        }
        words.push(count(number, "arrays")?);
        for subscript in &access.subscripts {
            words.push(subscript.constant);
            coefficients(words, &subscript.coefficients, self.loops.len())?;
        }
        Ok(())
    }

    /// The nest that the words of a ticket, or of a written nest with up to 6 loops and 16 limits a side, describe.
    ///
    /// Words outside their ranges are read where a nest can hold them, so that what is refused can be shown.
    ///
    /// # Errors
    ///
    /// Where a word is missing, or one too many, or no nest can hold it (a rule of 7, an access of no array).
    pub fn from_words(words: &[i16]) -> Result<Nest, WordsError> {
        decode(words).map(|(nest, _)| nest)
    }
}

fn shape<T>(message: String) -> Result<T, ShapeError> {
    Err(ShapeError { message })
}

fn count(n: usize, what: &str) -> Result<i16, ShapeError> {
    i16::try_from(n).or_else(|_| shape(format!("{n} {what} are more than a word can count")))
}

fn limits(words: &mut Vec<i16>, side: &[Limit], outside: usize) -> Result<(), ShapeError> {
    words.push(count(side.len(), "limits")?);
    for limit in side {
        words.extend([limit.multiplier, limit.constant]);
        coefficients(words, &limit.coefficients, outside)?;
    }
    Ok(())
}

fn coefficients(words: &mut Vec<i16>, given: &[i16], loops: usize) -> Result<(), ShapeError> {
    if given.len() != loops {
        return shape(format!("{} coefficients stand where {loops} loops need one each", given.len()));
    }
    words.extend(given);
    Ok(())
}

impl Rule {
    pub(crate) fn number(self) -> i16 {
        match self {
            Rule::Opaque => 0,
            Rule::Sum => 1,
            Rule::Largest => 2,
            Rule::First => 3,
        }
    }
}

impl Step {
    pub(crate) fn words(self) -> [i16; 4] {
        match self {
            Step::Exchange { outer, inner } => [1, outer, inner, 0],
            Step::Reverse { at } => [2, at, 0, 0],
            Step::Skew { outer, inner, by } => [3, outer, inner, by],
            Step::Section { at, width } => [4, at, width, 0],
            Step::Move { from, to } => [5, from, to, 0],
        }
    }
}

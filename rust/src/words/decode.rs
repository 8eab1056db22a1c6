//! A nest from words.

use super::WordsError;
use crate::nest::{Access, Array, Limit, Loop, Nest, Rule, Statement, Step, Subscript};

/// Where the parts of a nest begin in its words, from 0.
#[derive(Default)]
pub(crate) struct Offsets {
    pub loops: Vec<usize>,
    pub statements: Vec<usize>,
    pub steps: Vec<usize>,
}

pub(crate) fn decode(words: &[i16]) -> Result<(Nest, Offsets), WordsError> {
    let mut reader = Reader { words, at: 0 };
    let (mut nest, mut offsets) = (Nest::default(), Offsets::default());
    let loops = reader.count("a count of loops")?;
    for outside in 0..loops {
        offsets.loops.push(reader.at);
        nest.loops.push(Loop {
            lower: reader.limits(outside)?,
            upper: reader.limits(outside)?,
        });
    }
    for _ in 0..reader.count("a count of arrays")? {
        let dimensions = reader.count("a count of dimensions")?;
        nest.arrays.push(Array {
            extents: reader.several(dimensions, "an extent")?,
        });
    }
    for _ in 0..reader.count("a count of statements")? {
        offsets.statements.push(reader.at);
        nest.statements.push(reader.statement(loops, &nest.arrays)?);
    }
    for _ in 0..reader.count("a count of steps")? {
        offsets.steps.push(reader.at);
        nest.steps.push(reader.step()?);
    }
    if reader.at < words.len() {
        Err(reader.error("no word after the last step"))
    } else {
        Ok((nest, offsets))
    }
}

struct Reader<'a> {
    words: &'a [i16],
    at: usize,
}

impl Reader<'_> {
    fn error(&self, expected: &'static str) -> WordsError {
        WordsError {
            word: self.at + 1,
            expected,
        }
    }

    fn word(&mut self, expected: &'static str) -> Result<i16, WordsError> {
        let word = *self.words.get(self.at).ok_or_else(|| self.error(expected))?;
        self.at += 1;
        Ok(word)
    }

    fn meant<T>(&mut self, expected: &'static str, meaning: impl Fn(i16) -> Option<T>) -> Result<T, WordsError> {
        let word = self.word(expected)?;
        meaning(word).ok_or_else(|| {
            self.at -= 1;
            self.error(expected)
        })
    }

    fn count(&mut self, expected: &'static str) -> Result<usize, WordsError> {
        self.meant(expected, |word| usize::try_from(word).ok())
    }

    fn several(&mut self, n: usize, expected: &'static str) -> Result<Vec<i16>, WordsError> {
        (0..n).map(|_| self.word(expected)).collect()
    }

    fn limits(&mut self, outside: usize) -> Result<Vec<Limit>, WordsError> {
        let limits = self.count("a count of limits")?;
        let mut side = Vec::new();
        for _ in 0..limits {
            side.push(Limit {
                multiplier: self.word("a multiplier")?,
                constant: self.word("a constant")?,
                coefficients: self.several(outside, "a coefficient")?,
            });
        }
        Ok(side)
    }

    fn statement(&mut self, loops: usize, arrays: &[Array]) -> Result<Statement, WordsError> {
        let rule = self.meant("a rule, 0 to 3", |word| match word {
            0 => Some(Rule::Opaque),
            1 => Some(Rule::Sum),
            2 => Some(Rule::Largest),
            3 => Some(Rule::First),
            _ => None,
        })?;
        let constant = self.word("a constant")?;
        let write = self.access(loops, arrays)?;
        let count = self.count("a count of reads")?;
        let mut reads = Vec::new();
        for _ in 0..count {
            reads.push(self.access(loops, arrays)?);
        }
        Ok(Statement {
            rule,
            constant,
            write,
            reads,
        })
    }

    fn access(&mut self, loops: usize, arrays: &[Array]) -> Result<Access, WordsError> {
        let known = |word: i16| usize::try_from(word).ok().filter(|n| (1..=arrays.len()).contains(n));
        let array = self.meant("an array's number", known)?;
        let mut subscripts = Vec::new();
        for _ in &arrays[array - 1].extents {
            let constant = self.word("a constant")?;
            subscripts.push(Subscript {
                constant,
                coefficients: self.several(loops, "a coefficient")?,
            });
        }
        Ok(Access { array, subscripts })
    }

    fn step(&mut self) -> Result<Step, WordsError> {
        let kind = self.meant("a step's kind, 1 to 5", |word| (1..=5).contains(&word).then_some(word))?;
        let at = self.word("a loop's number")?;
        match kind {
            1 => Ok(Step::Exchange {
                outer: at,
                inner: self.word("a loop's number")?,
            })
            .and_then(|step| self.unused(1, step)),
            2 => self.unused(2, Step::Reverse { at }),
            3 => Ok(Step::Skew {
                outer: at,
                inner: self.word("a loop's number")?,
                by: self.word("1 or -1")?,
            }),
            4 => Ok(Step::Section {
                at,
                width: self.word("a width")?,
            })
            .and_then(|step| self.unused(1, step)),
            _ => Ok(Step::Move {
                from: at,
                to: self.word("a loop's new place")?,
            })
            .and_then(|step| self.unused(1, step)),
        }
    }

    fn unused(&mut self, n: usize, step: Step) -> Result<Step, WordsError> {
        for _ in 0..n {
            self.meant("0, since the step has no use for the word", |word| (word == 0).then_some(()))?;
        }
        Ok(step)
    }
}

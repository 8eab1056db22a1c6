//! From bytes to a ticket, word by word from the front: refusals 1 to 6.

use crate::answers::Refusal;
use crate::ticket::{Access, Affine, Limit, Loop, Nest, Statement, Step, Ticket, elements_of};

const NEVER: i64 = -32768;

struct Words<'a> {
    bytes: &'a [u8],
    /// Words read so far, so that the last one read has this number.
    read: usize,
    /// The kinds of the steps read so far.
    kinds: Vec<i64>,
}

impl Words<'_> {
    fn here(&self, number: u8) -> Refusal {
        Refusal::new(number, self.read)
    }

    fn next(&mut self) -> Result<i64, Refusal> {
        let begin = 2 * self.read;
        self.read += 1;
        match self.bytes.get(begin..begin + 2) {
            Some(pair) => Ok(i64::from(i16::from_le_bytes([pair[0], pair[1]]))),
            None => Err(self.here(1)),
        }
    }

    fn count(&mut self, least: i64, most: i64) -> Result<usize, Refusal> {
        let count = self.next()?;
        if count < least || count > most {
            return Err(self.here(3));
        }
        Ok(count as usize)
    }

    fn within(&mut self, least: i64, most: i64) -> Result<i64, Refusal> {
        let word = self.next()?;
        if word < least || word > most {
            return Err(self.here(4));
        }
        Ok(word)
    }

    /// A word that may be all but −32768.
    fn number(&mut self) -> Result<i64, Refusal> {
        self.within(NEVER + 1, 32767)
    }

    fn affine(&mut self, indices: usize) -> Result<Affine, Refusal> {
        let constant = self.number()?;
        let coefficients = (0..indices).map(|_| self.number());
        let coefficients = coefficients.collect::<Result<_, _>>()?;
        Ok(Affine { constant, coefficients })
    }

    fn side(&mut self, outside: usize) -> Result<Vec<Limit>, Refusal> {
        let count = self.count(1, 4)?;
        let mut limits = vec![];
        for _ in 0..count {
            let p = self.within(1, 32767)?;
            let e = self.affine(outside)?;
            limits.push(Limit { p, e });
        }
        Ok(limits)
    }

    fn loops(&mut self) -> Result<Vec<Loop>, Refusal> {
        let count = self.count(1, 4)?;
        let mut loops = vec![];
        for outside in 0..count {
            let lower = self.side(outside)?;
            let upper = self.side(outside)?;
            loops.push(Loop { lower, upper });
        }
        Ok(loops)
    }

    fn arrays(&mut self) -> Result<Vec<Vec<i64>>, Refusal> {
        let count = self.count(1, 4)?;
        let mut arrays: Vec<Vec<i64>> = vec![];
        for _ in 0..count {
            let dimensions = self.count(1, 3)?;
            let extents = (0..dimensions).map(|_| self.within(1, 4096));
            arrays.push(extents.collect::<Result<_, _>>()?);
            let so_far: i64 = arrays.iter().map(|extents| elements_of(extents)).sum();
            if so_far > 16_384 {
                return Err(self.here(5));
            }
        }
        Ok(arrays)
    }

    fn access(&mut self, loops: usize, arrays: &[Vec<i64>]) -> Result<Access, Refusal> {
        let number = self.within(1, arrays.len() as i64)?;
        let array = number as usize - 1;
        let subscripts = arrays[array].iter().map(|_| self.affine(loops));
        let subscripts = subscripts.collect::<Result<_, _>>()?;
        Ok(Access { array, subscripts })
    }

    fn statements(&mut self, loops: usize, arrays: &[Vec<i64>]) -> Result<Vec<Statement>, Refusal> {
        let count = self.count(1, 4)?;
        let mut statements = vec![];
        for _ in 0..count {
            let rule = self.within(0, 3)?;
            let constant = self.within(0, if rule == 3 { 0 } else { 32767 })?;
            let write = self.access(loops, arrays)?;
            let reads = self.count(if rule == 3 { 1 } else { 0 }, 4)?;
            let reads = (0..reads).map(|_| self.access(loops, arrays));
            let reads = reads.collect::<Result<_, _>>()?;
            statements.push(Statement {
                rule,
                constant,
                write,
                reads,
            });
        }
        Ok(statements)
    }

    /// A loop's number as a step has it, from 1; `fits` is the rule that it keeps, and 6 at the step's number where it breaks it.
    fn named(&mut self, step: usize, fits: impl Fn(i64) -> bool) -> Result<usize, Refusal> {
        let word = self.number()?;
        if !fits(word) {
            return Err(Refusal::new(6, step));
        }
        Ok(word as usize - 1)
    }

    fn step(&mut self, step: usize, loops: usize) -> Result<Step, Refusal> {
        let loops = loops as i64;
        let there = |word: i64| 1 <= word && word <= loops;
        let kind = self.within(1, 5)?;
        self.kinds.push(kind);
        let a = self.named(step, |a| there(a) && (kind != 4 || loops < 6))?;
        let first = a as i64 + 1;
        match kind {
            1 => {
                self.named(step, |b| there(b) && b == first + 1)?;
                self.within(0, 0)?;
                Ok(Step::Exchange { a })
            }
            2 => {
                self.within(0, 0)?;
                self.within(0, 0)?;
                Ok(Step::Reversal { a })
            }
            3 => {
                let b = self.named(step, |b| there(b) && b > first)?;
                let c = self.within(-1, 1)?;
                if c == 0 {
                    return Err(self.here(4));
                }
                Ok(Step::Skew { a, b, c })
            }
            4 => {
                let width = self.within(2, 256)?;
                self.within(0, 0)?;
                Ok(Step::Section { a, width })
            }
            _ => {
                let b = self.named(step, |b| there(b) && b != first)?;
                self.within(0, 0)?;
                Ok(Step::Circulation { a, b })
            }
        }
    }

    fn steps(&mut self, mut loops: usize) -> Result<Vec<Step>, Refusal> {
        let count = self.count(0, 8)?;
        let mut steps = vec![];
        for number in 1..=count {
            let step = self.step(number, loops)?;
            if let Step::Section { .. } = step {
                loops += 1;
            }
            steps.push(step);
        }
        Ok(steps)
    }
}

fn ticket(words: &mut Words) -> Result<Ticket, Refusal> {
    let loops = words.loops()?;
    let arrays = words.arrays()?;
    let statements = words.statements(loops.len(), &arrays)?;
    let steps = words.steps(loops.len())?;
    if words.bytes.len() > 2 * words.read {
        return Err(Refusal::new(2, words.read + 1));
    }
    let nest = Nest { loops, arrays, statements };
    Ok(Ticket { nest, steps })
}

fn words(bytes: &[u8]) -> Words<'_> {
    Words {
        bytes,
        read: 0,
        kinds: vec![],
    }
}

pub fn read(bytes: &[u8]) -> Result<Ticket, Refusal> {
    ticket(&mut words(bytes))
}

/// The kinds of the steps, as far as a ticket can be read: those of an unreadable one end at the step with the first offending word.
pub fn kinds(bytes: &[u8]) -> Vec<i64> {
    let mut words = words(bytes);
    // The kinds are asked for, whatever becomes of the rest.
    let _ = ticket(&mut words);
    words.kinds
}

//! From any bytes to a ticket, or the first refusal of 1 to 6.

use crate::ticket::{Access, Array, Limit, Loop, MOST_LOOPS, Nest, Row, Statement, Step, Subscript, Ticket};
use crate::{Outcome, Refusal};

const MOST_ELEMENTS: usize = 16_384;

struct Reader<'a> {
    bytes: &'a [u8],
    /// Words read, which is the number of the last one.
    read: usize,
}

impl Reader<'_> {
    fn word(&mut self) -> Outcome<i64> {
        self.read += 1;
        match self.bytes.get(self.read * 2 - 2..self.read * 2) {
            Some(pair) => Ok(i16::from_le_bytes([pair[0], pair[1]]) as i64),
            None => Err(Refusal::new(1, self.read)),
        }
    }

    fn within(&mut self, least: usize, most: usize, number: u8) -> Outcome<usize> {
        let word = self.word()?;
        if (least as i64..=most as i64).contains(&word) {
            Ok(word as usize)
        } else {
            Err(Refusal::new(number, self.read))
        }
    }

    fn count(&mut self, least: usize, most: usize) -> Outcome<usize> {
        self.within(least, most, 3)
    }

    fn natural(&mut self, least: usize, most: usize) -> Outcome<usize> {
        self.within(least, most, 4)
    }

    fn number(&mut self) -> Outcome<i64> {
        match self.word()? {
            -32768 => Err(Refusal::new(4, self.read)),
            word => Ok(word),
        }
    }

    fn row(&mut self, length: usize) -> Outcome<Row> {
        let mut row = [0; MOST_LOOPS];
        for coefficient in &mut row[..length] {
            *coefficient = self.number()?;
        }
        Ok(row)
    }

    fn side(&mut self, outside: usize) -> Outcome<Vec<Limit>> {
        let count = self.count(1, 4)?;
        let mut limits = Vec::with_capacity(count);
        for _ in 0..count {
            limits.push(Limit {
                multiplier: self.natural(1, 32767)? as i64,
                constant: self.number()?,
                row: self.row(outside)?,
            });
        }
        Ok(limits)
    }

    fn loops(&mut self) -> Outcome<Vec<Loop>> {
        let count = self.count(1, 4)?;
        let mut loops = Vec::with_capacity(MOST_LOOPS);
        for outside in 0..count {
            loops.push(Loop {
                lower: self.side(outside)?,
                upper: self.side(outside)?,
            });
        }
        Ok(loops)
    }

    fn arrays(&mut self) -> Outcome<Vec<Array>> {
        let count = self.count(1, 4)?;
        let (mut arrays, mut base) = (Vec::with_capacity(count), 0);
        for _ in 0..count {
            let dimensions = self.count(1, 3)?;
            let mut extents = Vec::with_capacity(dimensions);
            for _ in 0..dimensions {
                extents.push(self.natural(1, 4096)?);
            }
            let elements = extents.iter().product();
            if base + elements > MOST_ELEMENTS {
                return Err(Refusal::new(5, self.read));
            }
            arrays.push(Array { base, elements, extents });
            base += elements;
        }
        Ok(arrays)
    }

    fn access(&mut self, nest: &mut Nest) -> Outcome<()> {
        let array = self.natural(1, nest.arrays.len())? - 1;
        let first = nest.subscripts.len();
        nest.accesses.push(Access { array, first });
        for _ in 0..nest.arrays[array].extents.len() {
            nest.subscripts.push(Subscript {
                constant: self.number()?,
                row: self.row(nest.loops.len())?,
            });
        }
        Ok(())
    }

    /// Under rule 3 the constant must be 0, and there must be a read.
    fn statement(&mut self, nest: &mut Nest) -> Outcome<()> {
        let rule = self.natural(0, 3)?;
        let (most_constant, least_reads) = if rule == 3 { (0, 1) } else { (32767, 0) };
        let constant = self.natural(0, most_constant)? as u32;
        let first = nest.accesses.len();
        self.access(nest)?;
        let reads = self.count(least_reads, 4)?;
        for _ in 0..reads {
            self.access(nest)?;
        }
        nest.statements.push(Statement {
            rule: rule as u8,
            constant,
            first,
            reads,
        });
        Ok(())
    }

    fn nest(&mut self) -> Outcome<Nest> {
        let mut nest = Nest {
            loops: self.loops()?,
            arrays: self.arrays()?,
            statements: Vec::with_capacity(4),
            accesses: Vec::with_capacity(20),
            subscripts: Vec::with_capacity(60),
        };
        for _ in 0..self.count(1, 4)? {
            self.statement(&mut nest)?;
        }
        Ok(nest)
    }

    /// The number of a loop, from 1, that a step names.
    fn named(&mut self, step: usize, least: usize, most: usize) -> Outcome<usize> {
        let word = self.number()?;
        if (least as i64..=most as i64).contains(&word) {
            Ok(word as usize)
        } else {
            Err(Refusal::new(6, step))
        }
    }

    fn step(&mut self, number: usize, depth: usize) -> Outcome<Step> {
        let kind = self.natural(1, 4)?;
        let most = if kind == 4 && depth == MOST_LOOPS { 0 } else { depth };
        let a = self.named(number, 1, most)?;
        match kind {
            1 => {
                self.named(number, a + 1, depth.min(a + 1))?;
                self.natural(0, 0)?;
                Ok(Step::Exchange { a: a - 1 })
            }
            2 => {
                self.natural(0, 0)?;
                self.natural(0, 0)?;
                Ok(Step::Reversal { a: a - 1 })
            }
            3 => {
                let b = self.named(number, a + 1, depth)?;
                match self.word()? {
                    c @ (1 | -1) => Ok(Step::Skew { a: a - 1, b: b - 1, c }),
                    _ => Err(Refusal::new(4, self.read)),
                }
            }
            _ => {
                let width = self.natural(2, 256)? as i64;
                self.natural(0, 0)?;
                Ok(Step::Section { a: a - 1, width })
            }
        }
    }

    fn steps(&mut self, mut depth: usize) -> Outcome<Vec<Step>> {
        let count = self.count(0, 8)?;
        let mut steps = Vec::with_capacity(count);
        for number in 1..=count {
            let step = self.step(number, depth)?;
            depth += matches!(step, Step::Section { .. }) as usize;
            steps.push(step);
        }
        Ok(steps)
    }
}

pub fn read(bytes: &[u8]) -> Outcome<Ticket> {
    let mut reader = Reader { bytes, read: 0 };
    let nest = reader.nest()?;
    let steps = reader.steps(nest.loops.len())?;
    if reader.read * 2 < bytes.len() {
        return Err(Refusal::new(2, reader.read + 1));
    }
    Ok(Ticket { nest, steps })
}

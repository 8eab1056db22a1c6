//! A nest as a ticket's bytes.

use crate::ticket::{Limit, Nest, Statement};
use crate::{Outcome, Refusal, SHORT_BUFFER};

struct Writer<'a> {
    out: std::slice::ChunksExactMut<'a, u8>,
}

impl Writer<'_> {
    fn word(&mut self, word: i64) {
        if let Some(pair) = self.out.next() {
            pair.copy_from_slice(&(word as i16).to_le_bytes());
        }
    }

    fn side(&mut self, limits: &[Limit], outside: usize) {
        self.word(limits.len() as i64);
        for limit in limits {
            self.word(limit.multiplier);
            self.word(limit.constant);
            limit.row[..outside].iter().for_each(|c| self.word(*c));
        }
    }

    fn access(&mut self, nest: &Nest, number: usize) {
        let access = &nest.accesses[number];
        self.word(access.array as i64 + 1);
        for subscript in nest.subscripts_of(access) {
            self.word(subscript.constant);
            subscript.row[..nest.loops.len()].iter().for_each(|c| self.word(*c));
        }
    }

    fn statement(&mut self, nest: &Nest, statement: &Statement) {
        self.word(statement.rule as i64);
        self.word(statement.constant as i64);
        self.access(nest, statement.first);
        self.word(statement.reads as i64);
        for read in 1..=statement.reads {
            self.access(nest, statement.first + read);
        }
    }

    fn nest(&mut self, nest: &Nest) {
        self.word(nest.loops.len() as i64);
        for (outside, one) in nest.loops.iter().enumerate() {
            self.side(&one.lower, outside);
            self.side(&one.upper, outside);
        }
        self.word(nest.arrays.len() as i64);
        for array in &nest.arrays {
            self.word(array.extents.len() as i64);
            array.extents.iter().for_each(|extent| self.word(*extent as i64));
        }
        self.word(nest.statements.len() as i64);
        nest.statements.iter().for_each(|statement| self.statement(nest, statement));
        self.word(0);
    }
}

/// How many words a nest has.
fn words(nest: &Nest) -> usize {
    let depth = nest.loops.len();
    let limits = |(outside, one): (usize, &crate::ticket::Loop)| 2 + (one.lower.len() + one.upper.len()) * (2 + outside);
    let loops: usize = nest.loops.iter().enumerate().map(limits).sum();
    let arrays: usize = nest.arrays.iter().map(|array| 1 + array.extents.len()).sum();
    let accesses = nest.accesses.len() + nest.subscripts.len() * (1 + depth);
    4 + loops + arrays + nest.statements.len() * 3 + accesses
}

/// Writes a nest; how many bytes it has.
pub fn write(nest: &Nest, out: &mut [u8]) -> Outcome<usize> {
    let size = words(nest) * 2;
    let out = out.get_mut(..size).ok_or(Refusal::new(SHORT_BUFFER, 0))?;
    let mut writer = Writer {
        out: out.chunks_exact_mut(2),
    };
    writer.nest(nest);
    Ok(size)
}

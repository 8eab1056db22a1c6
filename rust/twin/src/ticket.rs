//! A ticket. Loops, arrays and accesses are counted from 0.

pub const MOST_LOOPS: usize = 6;
pub const MOST_LIMITS: usize = 16;

/// One coefficient for each loop; those of loops that are not there are 0.
pub type Row = [i64; MOST_LOOPS];

/// The multiplier times the index is bounded by the constant and the coefficients times the indices outside.
#[derive(Clone, Copy, PartialEq, Eq)]
pub struct Limit {
    pub multiplier: i64,
    pub constant: i64,
    pub row: Row,
}

#[derive(Default)]
pub struct Loop {
    pub lower: Vec<Limit>,
    pub upper: Vec<Limit>,
}

pub struct Array {
    /// Where it begins in the store.
    pub base: usize,
    pub elements: usize,
    pub extents: Vec<usize>,
}

#[derive(Clone, Copy, Default)]
pub struct Subscript {
    pub constant: i64,
    pub row: Row,
}

/// Its subscripts stand in the nest's list, one for each dimension.
pub struct Access {
    pub array: usize,
    pub first: usize,
}

/// Its accesses stand in the nest's list, the written one first.
pub struct Statement {
    pub rule: u8,
    pub constant: u32,
    pub first: usize,
    pub reads: usize,
}

pub struct Nest {
    pub loops: Vec<Loop>,
    pub arrays: Vec<Array>,
    pub statements: Vec<Statement>,
    pub accesses: Vec<Access>,
    pub subscripts: Vec<Subscript>,
}

impl Nest {
    pub fn elements(&self) -> usize {
        self.arrays.last().map_or(0, |array| array.base + array.elements)
    }

    pub fn subscripts_of(&self, access: &Access) -> &[Subscript] {
        &self.subscripts[access.first..][..self.arrays[access.array].extents.len()]
    }
}

#[derive(Clone, Copy)]
pub enum Step {
    Exchange { a: usize },
    Reversal { a: usize },
    Skew { a: usize, b: usize, c: i64 },
    Section { a: usize, width: i64 },
}

pub struct Ticket {
    pub nest: Nest,
    pub steps: Vec<Step>,
}

//! The ticket: what its four sections say.

/// A constant plus one coefficient for each index.
#[derive(Clone, PartialEq, Eq, Debug)]
pub struct Affine {
    pub constant: i64,
    pub coefficients: Vec<i64>,
}

impl Affine {
    pub fn at(&self, indices: &[i64]) -> i64 {
        assert_eq!(self.coefficients.len(), indices.len());
        let terms = self.coefficients.iter().zip(indices);
        self.constant + terms.map(|(k, index)| k * index).sum::<i64>()
    }
}

/// p × index ≥ e as a lower limit, p × index ≤ e as an upper one.
#[derive(Clone, PartialEq, Eq, Debug)]
pub struct Limit {
    pub p: i64,
    pub e: Affine,
}

#[derive(Clone, PartialEq, Eq, Debug)]
pub struct Loop {
    pub lower: Vec<Limit>,
    pub upper: Vec<Limit>,
}

/// `array` is counted from 0 here, from 1 in the ticket.
#[derive(Clone, PartialEq, Eq, Debug)]
pub struct Access {
    pub array: usize,
    pub subscripts: Vec<Affine>,
}

#[derive(Clone, PartialEq, Eq, Debug)]
pub struct Statement {
    pub rule: i64,
    pub constant: i64,
    pub write: Access,
    pub reads: Vec<Access>,
}

impl Statement {
    /// All accesses in ticket order: the write, then the reads.
    pub fn accesses(&self) -> impl Iterator<Item = &Access> {
        std::iter::once(&self.write).chain(&self.reads)
    }

    pub fn accesses_mut(&mut self) -> impl Iterator<Item = &mut Access> {
        std::iter::once(&mut self.write).chain(&mut self.reads)
    }
}

/// The first three sections; an array is the list of its extents.
#[derive(Clone, PartialEq, Eq, Debug)]
pub struct Nest {
    pub loops: Vec<Loop>,
    pub arrays: Vec<Vec<i64>>,
    pub statements: Vec<Statement>,
}

impl Nest {
    pub fn subscripts_mut(&mut self) -> impl Iterator<Item = &mut Affine> {
        let accesses = self.statements.iter_mut().flat_map(Statement::accesses_mut);
        accesses.flat_map(|access| access.subscripts.iter_mut())
    }

    /// The elements of all arrays together.
    pub fn elements(&self) -> i64 {
        self.arrays.iter().map(|extents| elements_of(extents)).sum()
    }

    /// The element that an access names at a point, by its place in the store: arrays follow one another, last subscript fastest.
    pub fn element(&self, access: &Access, point: &[i64]) -> usize {
        let before = &self.arrays[..access.array];
        let offset: i64 = before.iter().map(|extents| elements_of(extents)).sum();
        let mut place = 0;
        for (subscript, extent) in access.subscripts.iter().zip(&self.arrays[access.array]) {
            place = place * extent + subscript.at(point);
        }
        usize::try_from(offset + place).expect("subscripts within their extents")
    }
}

pub fn elements_of(extents: &[i64]) -> i64 {
    extents.iter().product()
}

/// Loops are counted from 0 here, from 1 in the ticket.
#[derive(Clone, Copy, PartialEq, Eq, Debug)]
pub enum Step {
    /// Loops a and a + 1.
    Exchange {
        a: usize,
    },
    Reversal {
        a: usize,
    },
    /// Inner loop b by outer loop a, c is 1 or −1.
    Skew {
        a: usize,
        b: usize,
        c: i64,
    },
    Section {
        a: usize,
        width: i64,
    },
    /// Loop a goes to place b, and those between close up.
    Circulation {
        a: usize,
        b: usize,
    },
}

impl Step {
    /// What is done one after another: the neighbouring exchanges that bring loop a to place b, or the step itself.
    pub fn stages(&self) -> Vec<Step> {
        match *self {
            Step::Circulation { a, b } if a < b => (a..b).map(|a| Step::Exchange { a }).collect(),
            Step::Circulation { a, b } => (b..a).rev().map(|a| Step::Exchange { a }).collect(),
            step => vec![step],
        }
    }
}

#[derive(Clone, PartialEq, Eq, Debug)]
pub struct Ticket {
    pub nest: Nest,
    pub steps: Vec<Step>,
}

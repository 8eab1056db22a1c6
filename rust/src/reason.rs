//! Why a ticket is out of order: the pairs of instances that trade places at the refused step.

use crate::answers::{Judgement, Refusal};
use crate::entries::PairRecord;
use crate::listing::{Kind, Sign};
use crate::nest::{Access, Nest, Step, Subscript};
use crate::space;
use std::fmt;

/// The true reason of a refusal with number 10, as [`crate::why`] gives it.
#[derive(Clone, PartialEq, Eq, Debug)]
pub enum Reason {
    /// The ticket is not refused with 10: this is what [`crate::judge`] answers.
    Judged(Result<Judgement, Refusal>),
    /// It is, by the table alone: no two conflicting instances trade places at the step.
    TableAlone {
        /// The refused step, from 1.
        step: u32,
    },
    /// It is, and pairs trade places at the step.
    Pairs {
        /// The refused step, from 1.
        step: u32,
        /// How many pairs there are, one for each kind of their conflicts.
        count: u32,
        /// The first of them, by source iteration, sink iteration, source statement, sink statement and kind.
        pairs: Vec<Pair>,
    },
}

/// Two conflicting instances that trade places, and one kind of their conflict.
///
/// Printed with `{}`, it is as a line of the listing, with both iterations behind it: `O 1 1 (0, 1) (1, 0)`.
#[derive(Clone, PartialEq, Eq, Debug, Hash)]
#[non_exhaustive]
pub struct Pair {
    /// The earlier instance's iteration in the ticket's own order: one index for each loop, outermost first.
    pub source: Vec<i16>,
    /// The later instance's iteration.
    pub sink: Vec<i16>,
    /// The earlier instance's statement, from 1.
    pub source_statement: usize,
    /// The later instance's statement.
    pub sink_statement: usize,
    /// What the two do to the element.
    pub kind: Kind,
}

impl Reason {
    /// What [`crate::judge`] answers.
    ///
    /// # Errors
    ///
    /// The refusal, numbers 1 to 13.
    pub fn judgement(&self) -> Result<Judgement, Refusal> {
        match self {
            Reason::Judged(answer) => *answer,
            Reason::TableAlone { step } | Reason::Pairs { step, .. } => Err(Refusal::new(10, *step)),
        }
    }
}

impl Pair {
    /// The pair of a record that the reason entry has filled in, of a ticket of so many loops.
    pub(crate) fn of(record: &PairRecord, loops: usize) -> Pair {
        let kind = match u8::try_from(record.kind) {
            Ok(b'F') => Kind::Flow,
            Ok(b'A') => Kind::Anti,
            Ok(b'O') => Kind::Output,
            _ => panic!("the reason entry gives one of the kinds F, A and O"),
        };
        Pair {
            source: record.source[..loops].to_vec(),
            sink: record.sink[..loops].to_vec(),
            source_statement: record.source_statement.into(),
            sink_statement: record.sink_statement.into(),
            kind,
        }
    }

    /// How the indices of source and sink compare where the steps have moved both, outermost first. Without steps it is the vector of the listing.
    ///
    /// # Panics
    ///
    /// Where a step names a loop that is not there.
    pub fn vector(&self, steps: &[Step]) -> Vec<Sign> {
        let [source, sink] = [&self.source, &self.sink].map(|iteration| wide(iteration));
        let moved = space::moved(&[source, sink], steps);
        moved[0]
            .iter()
            .zip(&moved[1])
            .map(|(source, sink)| Sign::of(*source, *sink))
            .collect()
    }

    /// The element that both use: its array, numbered from 1, and its subscripts.
    ///
    /// # Panics
    ///
    /// Where the nest is not the one of the pair's ticket and has no such statement.
    pub fn element(&self, nest: &Nest) -> (usize, Vec<i64>) {
        // A statement writes one element; the other instance may read several.
        let (statement, iteration) = match self.kind {
            Kind::Flow | Kind::Output => (self.source_statement, &self.source),
            Kind::Anti => (self.sink_statement, &self.sink),
        };
        let Access { array, subscripts } = &nest.statements[statement - 1].write;
        let iteration = wide(iteration);
        let value = |s: &Subscript| space::affine(s.constant, &s.coefficients, &iteration);
        (*array, subscripts.iter().map(value).collect())
    }
}

fn wide(iteration: &[i16]) -> Vec<i64> {
    iteration.iter().map(|index| i64::from(*index)).collect()
}

/// As in `(0, 1)`.
pub(crate) fn listed(indices: &[impl fmt::Display]) -> String {
    let indices: Vec<String> = indices.iter().map(ToString::to_string).collect();
    format!("({})", indices.join(", "))
}

impl fmt::Display for Pair {
    fn fmt(&self, f: &mut fmt::Formatter<'_>) -> fmt::Result {
        let (source, sink) = (listed(&self.source), listed(&self.sink));
        write!(f, "{} {} {} {source} {sink}", self.kind, self.source_statement, self.sink_statement)
    }
}

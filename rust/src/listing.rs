//! The listing of directions, taken from the text that the list entry writes.

use crate::entries;
use std::fmt;

/// The directions of a ticket's nest.
///
/// Printed with `{}`, it is the text that the entry wrote.
#[derive(Clone, PartialEq, Eq, Debug, Hash)]
#[non_exhaustive]
pub struct Listing {
    /// The count of loops.
    pub loops: usize,
    /// The count of iterations.
    pub iterations: u32,
    /// The directions, ordered by source, sink, kind and vector.
    pub directions: Vec<Direction>,
}

/// One line of a listing: instances of two statements conflict, and so their indices compare.
#[derive(Clone, PartialEq, Eq, Debug, Hash)]
#[non_exhaustive]
pub struct Direction {
    /// What the two instances do to the element.
    pub kind: Kind,
    /// The statement of the earlier instance, from 1.
    pub source: usize,
    /// The statement of the later instance, from 1.
    pub sink: usize,
    /// One sign for each loop, outermost first.
    pub vector: Vec<Sign>,
}

/// What two instances do to the element that they share, the earlier first.
#[derive(Clone, Copy, PartialEq, Eq, Debug, Hash, PartialOrd, Ord)]
pub enum Kind {
    /// F: write, then read.
    Flow,
    /// A: read, then write.
    Anti,
    /// O: write, then write.
    Output,
}

/// How the source's index compares with the sink's.
#[derive(Clone, Copy, PartialEq, Eq, Debug, Hash, PartialOrd, Ord)]
pub enum Sign {
    /// `<`: the source's is smaller.
    Less,
    /// `=`: they are equal.
    Equal,
    /// `>`: the source's is greater.
    Greater,
}

impl Listing {
    /// Reads the text of the list entry. The entry is proved to write this form.
    pub(crate) fn read(text: &str) -> Option<Listing> {
        let mut lines = text.lines();
        let mut head = lines.next()?.split(' ');
        let mut number = || head.next()?.parse::<u32>().ok();
        let (loops, iterations, count) = (number()?, number()?, number()?);
        let directions: Vec<Direction> = lines.map(Direction::read).collect::<Option<_>>()?;
        (directions.len() == count as usize).then_some(Listing {
            loops: loops as usize,
            iterations,
            directions,
        })
    }
}

impl Direction {
    fn read(line: &str) -> Option<Direction> {
        let mut fields = line.split(' ');
        let kind = match fields.next()? {
            "F" => Kind::Flow,
            "A" => Kind::Anti,
            "O" => Kind::Output,
            _ => return None,
        };
        let source = fields.next()?.parse().ok()?;
        let sink = fields.next()?.parse().ok()?;
        let vector = fields.next()?.chars().map(Sign::read).collect::<Option<_>>()?;
        Some(Direction {
            kind,
            source,
            sink,
            vector,
        })
    }
}

impl Sign {
    /// The sign of a source's index and a sink's, as the library works it out for its vectors.
    pub fn of(source: i64, sink: i64) -> Sign {
        match entries::sign(source, sink) {
            ..0 => Sign::Less,
            0 => Sign::Equal,
            1.. => Sign::Greater,
        }
    }

    fn read(c: char) -> Option<Sign> {
        match c {
            '<' => Some(Sign::Less),
            '=' => Some(Sign::Equal),
            '>' => Some(Sign::Greater),
            _ => None,
        }
    }
}

impl fmt::Display for Sign {
    fn fmt(&self, f: &mut fmt::Formatter<'_>) -> fmt::Result {
        f.write_str(match self {
            Sign::Less => "<",
            Sign::Equal => "=",
            Sign::Greater => ">",
        })
    }
}

impl fmt::Display for Kind {
    fn fmt(&self, f: &mut fmt::Formatter<'_>) -> fmt::Result {
        f.write_str(match self {
            Kind::Flow => "F",
            Kind::Anti => "A",
            Kind::Output => "O",
        })
    }
}

impl fmt::Display for Direction {
    fn fmt(&self, f: &mut fmt::Formatter<'_>) -> fmt::Result {
        write!(f, "{} {} {} ", self.kind, self.source, self.sink)?;
        self.vector.iter().try_for_each(|sign| sign.fmt(f))
    }
}

impl fmt::Display for Listing {
    fn fmt(&self, f: &mut fmt::Formatter<'_>) -> fmt::Result {
        writeln!(f, "{} {} {}", self.loops, self.iterations, self.directions.len())?;
        self.directions.iter().try_for_each(|direction| writeln!(f, "{direction}"))
    }
}

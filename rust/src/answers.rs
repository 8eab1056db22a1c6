//! What the entries answer, as types.

use crate::entries::Answer;
use std::error::Error;
use std::fmt;

/// An accepted ticket.
#[derive(Clone, Copy, PartialEq, Eq, Debug, Hash)]
#[non_exhaustive]
pub struct Judgement {
    /// The count of iterations, of the old order and of the new.
    pub iterations: u32,
}

/// Whether two accesses may name one element.
#[derive(Clone, Copy, PartialEq, Eq, Debug, Hash)]
pub enum Independence {
    /// They never name one element.
    Apart,
    /// The test does not tell.
    Perhaps,
}

/// A refused ticket. Nothing that was lent to the entry has changed.
#[derive(Clone, Copy, PartialEq, Eq, Debug, Hash)]
#[non_exhaustive]
pub struct Refusal {
    /// Document 01's number, 1 to 16.
    pub number: u8,
    /// Where.
    pub place: Place,
    /// The trade's word for it.
    pub name: &'static str,
}

/// The place of a refusal, counted from 1.
#[derive(Clone, Copy, PartialEq, Eq, Debug, Hash)]
pub enum Place {
    /// A word of the ticket.
    Word(u32),
    /// A step.
    Step(u32),
    /// A loop of the ticket; under number 13, of the new nest.
    Loop(u32),
    /// A statement.
    Statement(u32),
    /// The refusal has no place.
    None,
}

/// The trade's word of each number, and when it is given.
const REFUSALS: [(&str, &str); 16] = [
    ("torn", "a needed word is missing or half there"),
    ("overhang", "bytes follow the last step"),
    ("bad count", "a count is outside its range"),
    ("bad word", "a word is outside its range"),
    ("overfull", "the arrays so far have more than 16,384 elements"),
    (
        "off the nest",
        "a loop or place that the step names is not there, or not where the step needs it, or a seventh loop would arise",
    ),
    ("far index", "an index of the loop goes beyond ±32767"),
    ("crowded", "the loop and those outside it have more than 4096 partial points"),
    ("off the array", "a subscript leaves its extent in some iteration"),
    ("out of order", "a direction points backwards after the step"),
    (
        "limits full",
        "a side of a loop has more than 16 limits after the step, or after one of a circulation's exchanges",
    ),
    (
        "big number",
        "a number of the nest is beyond ±32767 after the step, or after one of a circulation's exchanges",
    ),
    (
        "sprawl",
        "in the new nest an index goes beyond ±100,000, or a depth has more than 65,536 partial points",
    ),
    ("short buffer", "the lent buffer cannot take the output"),
    ("opaque", "the ticket cannot be run: the statement's rule is not told"),
    ("wrong store", "the store's length is not the total of elements"),
];

impl Refusal {
    pub(crate) fn new(number: u8, place: u32) -> Refusal {
        let (name, _) = known(number);
        let place = match number {
            _ if place == 0 => Place::None,
            1..=5 => Place::Word(place),
            6 | 10 | 11 | 12 => Place::Step(place),
            7 | 8 | 13 => Place::Loop(place),
            9 | 15 => Place::Statement(place),
            _ => Place::None,
        };
        Refusal { number, place, name }
    }

    /// When the number is given, as a sentence without its full stop.
    pub fn meaning(&self) -> &'static str {
        if self.number == 4 && self.place == Place::None {
            return "the ticket has no such access";
        }
        known(self.number).1
    }
}

fn known(number: u8) -> (&'static str, &'static str) {
    let found = usize::from(number).checked_sub(1).and_then(|n| REFUSALS.get(n));
    *found.expect("an entry answers a number from 0 to 16")
}

/// The count of an acceptance.
pub(crate) fn accepted(answer: Answer) -> Result<u32, Refusal> {
    match answer.number {
        0 => Ok(answer.count),
        number => Err(Refusal::new(number, answer.place)),
    }
}

impl fmt::Display for Place {
    fn fmt(&self, f: &mut fmt::Formatter<'_>) -> fmt::Result {
        match self {
            Place::Word(n) => write!(f, "word {n}"),
            Place::Step(n) => write!(f, "step {n}"),
            Place::Loop(n) => write!(f, "loop {n}"),
            Place::Statement(n) => write!(f, "statement {n}"),
            Place::None => f.write_str("no place"),
        }
    }
}

/// As in `refused 10 at step 1, out of order`.
impl fmt::Display for Refusal {
    fn fmt(&self, f: &mut fmt::Formatter<'_>) -> fmt::Result {
        write!(f, "refused {}", self.number)?;
        match self.place {
            Place::None => {}
            Place::Loop(n) if self.number == 13 => write!(f, " at loop {n} of the new nest")?,
            place => write!(f, " at {place}")?,
        }
        write!(f, ", {}", self.name)
    }
}

impl Error for Refusal {}

/// As in `accepted: 6 iterations`.
impl fmt::Display for Judgement {
    fn fmt(&self, f: &mut fmt::Formatter<'_>) -> fmt::Result {
        let noun = if self.iterations == 1 { "iteration" } else { "iterations" };
        write!(f, "accepted: {} {noun}", self.iterations)
    }
}

impl fmt::Display for Independence {
    fn fmt(&self, f: &mut fmt::Formatter<'_>) -> fmt::Result {
        f.write_str(match self {
            Independence::Apart => "apart",
            Independence::Perhaps => "perhaps",
        })
    }
}

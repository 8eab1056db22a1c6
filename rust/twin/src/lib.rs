//! The algorithm of the proved code in plain Rust; for benchmarks only.
//!
//! Stage by stage what the proved entries do: words into a ticket, points counted depth by depth, subscripts within their extents, the
//! element of every access at every point, chains of points by element, marks of vectors, steps, the size of the new nest. More than 256
//! points are not listed where the ranges of the loops enclose every subscript and the lines are squeezed: between those of the corner of the
//! nest, or of its centre, and those that Banerjee's inequalities allow. Where a Rust programmer would not copy, clear or compute something again,
//! this does not either.
//!
//! Nothing rests on these answers: the benchmark compares them with the proved entries' and times both. It is frozen: it reads document 01's words
//! as they were before any request of document 02, and the benchmark hands it those.

/// Calls a function that is generic over the count of loops: the innermost work is compiled for each.
macro_rules! at_depth {
    ($depth:expr, $function:ident($($argument:expr),*)) => {
        match $depth {
            1 => $function::<1>($($argument),*),
            2 => $function::<2>($($argument),*),
            3 => $function::<3>($($argument),*),
            4 => $function::<4>($($argument),*),
            5 => $function::<5>($($argument),*),
            _ => $function::<6>($($argument),*),
        }
    };
}

mod dependence;
mod directions;
mod elements;
mod exchange;
mod judgement;
mod listing;
mod points;
mod quick;
mod ranges;
mod reading;
mod run;
mod squeeze;
mod stepping;
mod ticket;
mod writing;

use judgement::{admit, judged};

/// An entry's answer: number 0 accepted, else 1 to 16; the place of a refusal; the count of an acceptance.
#[derive(Clone, Copy, PartialEq, Eq, Debug, Hash)]
pub struct Answer {
    pub number: u8,
    pub place: u32,
    pub count: u32,
}

#[derive(Clone, Copy, PartialEq, Eq, Debug)]
struct Refusal {
    number: u8,
    place: usize,
}

impl Refusal {
    fn new(number: u8, place: usize) -> Refusal {
        Refusal { number, place }
    }
}

type Outcome<T> = Result<T, Refusal>;

const SHORT_BUFFER: u8 = 14;

fn answer(outcome: Outcome<usize>) -> Answer {
    match outcome {
        Ok(count) => Answer {
            number: 0,
            place: 0,
            count: count as u32,
        },
        Err(refusal) => Answer {
            number: refusal.number,
            place: refusal.place as u32,
            count: 0,
        },
    }
}

/// Whether the new order is accepted, and the count of iterations.
pub fn judge(ticket: &[u8]) -> Answer {
    answer(judged(ticket).map(|judged| judged.count))
}

/// The new nest's bytes to the front of `out`.
pub fn write(ticket: &[u8], out: &mut [u8]) -> Answer {
    answer(judged(ticket).and_then(|judged| writing::write(&judged.nest, out)))
}

/// The listing of all directions to the front of `out`.
pub fn list(ticket: &[u8], out: &mut [u8]) -> Answer {
    answer(admit(ticket).and_then(|admitted| listing::write(&admitted.lines(), admitted.count, out)))
}

/// Whether two accesses, numbered from 1, are apart: 1, or else 0.
pub fn quick(ticket: &[u8], first: u64, second: u64) -> Answer {
    answer(admit(ticket).and_then(|admitted| quick::test(&admitted, first, second).map(usize::from)))
}

/// The nest in its new order on `store`.
pub fn run(ticket: &[u8], store: &mut [u32]) -> Answer {
    answer(judged(ticket).and_then(|judged| {
        run::run(&judged.nest, store)?;
        Ok(judged.count)
    }))
}

/// The iterations of an admitted ticket and its conflicts: pairs of accesses, source and sink, that name one element.
pub fn size(ticket: &[u8]) -> Option<(usize, u64)> {
    let admitted = admit(ticket).ok()?;
    let points = admitted.iterations.into_points();
    Some((points.count, dependence::conflicts(&admitted.ticket.nest, &points)))
}

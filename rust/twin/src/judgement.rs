//! From bytes to an admitted ticket, and on to its new nest.

use crate::dependence::{Lines, lines_at};
use crate::directions::DirectionSet;
use crate::elements::first_stray;
use crate::points::{Bounds, Points, Space, Trouble, survey};
use crate::ranges::{Ranges, are_compact, enclose, ranges};
use crate::reading::read;
use crate::squeeze;
use crate::ticket::{Nest, Ticket};
use crate::{Outcome, Refusal};

const OWN: Bounds = Bounds { far: 32_767, most: 4_096 };
pub const NEW: Bounds = Bounds {
    far: 100_000,
    most: 65_536,
};

/// The subscripts of so many points are looked at one by one; of more the ranges of the loops are asked first.
const FEW: usize = 32;

/// So many points are listed at once; more are not before they are needed.
const LISTED: usize = 256;

/// The points of a nest. No subscript leaves its extent at any of them.
pub enum Iterations {
    Listed(Points),
    /// Known from the ranges of the loops.
    Enclosed(Space, Ranges),
}

impl Iterations {
    pub fn into_points(self) -> Points {
        match self {
            Iterations::Listed(points) => points,
            Iterations::Enclosed(space, _) => space.points(),
        }
    }
}

pub struct Admitted {
    pub ticket: Ticket,
    pub count: usize,
    pub iterations: Iterations,
}

impl Admitted {
    pub fn ranges(&self) -> Ranges {
        match &self.iterations {
            Iterations::Listed(_) => ranges(&self.ticket.nest.loops),
            Iterations::Enclosed(_, ranges) => *ranges,
        }
    }

    /// Every line of the listing.
    pub fn lines(&self) -> Lines {
        let nest = &self.ticket.nest;
        match &self.iterations {
            Iterations::Listed(points) => lines_at(nest, points),
            Iterations::Enclosed(space, ranges) => squeeze::lines(nest, ranges).unwrap_or_else(|| lines_at(nest, &space.points())),
        }
    }
}

pub struct Judged {
    pub nest: Nest,
    pub count: usize,
}

/// Refusal 9.
fn iterations(nest: &Nest, space: Space) -> Outcome<Iterations> {
    if space.count > FEW {
        let ranges = ranges(&nest.loops);
        if enclose(&ranges, nest) {
            return Ok(if space.count > LISTED {
                Iterations::Enclosed(space, ranges)
            } else {
                Iterations::Listed(space.points())
            });
        }
    }
    let points = space.points();
    match first_stray(nest, &points) {
        Some(statement) => Err(Refusal::new(9, statement)),
        None => Ok(Iterations::Listed(points)),
    }
}

/// Refusals 1 to 9.
pub fn admit(bytes: &[u8]) -> Outcome<Admitted> {
    let ticket = read(bytes)?;
    let space = survey(&ticket.nest.loops, &OWN).map_err(|trouble| match trouble {
        Trouble::Far(place) => Refusal::new(7, place),
        Trouble::Crowded(place) => Refusal::new(8, place),
    })?;
    let count = space.count;
    let iterations = iterations(&ticket.nest, space)?;
    Ok(Admitted { ticket, count, iterations })
}

/// Refusal 13. Mostly the ranges of the loops are enough.
fn survey_new(nest: &Nest) -> Outcome<()> {
    if are_compact(&ranges(&nest.loops), NEW.most) {
        return Ok(());
    }
    match survey(&nest.loops, &NEW) {
        Err(Trouble::Far(place) | Trouble::Crowded(place)) => Err(Refusal::new(13, place)),
        Ok(_) => Ok(()),
    }
}

/// Refusals 1 to 13.
pub fn judged(bytes: &[u8]) -> Outcome<Judged> {
    let admitted = admit(bytes)?;
    let mut set = DirectionSet::of(&admitted.lines());
    let Ticket { mut nest, steps } = admitted.ticket;
    for (step, number) in steps.into_iter().zip(1..) {
        set = set.after(step);
        if set.points_back() {
            return Err(Refusal::new(10, number));
        }
        if nest.take(step) {
            return Err(Refusal::new(11, number));
        }
        if !nest.is_small() {
            return Err(Refusal::new(12, number));
        }
    }
    survey_new(&nest)?;
    Ok(Judged {
        nest,
        count: admitted.count,
    })
}

//! Pictures of a ticket: its iterations before and after the steps, the order of execution and the conflicting pairs.
//!
//! The answer in the caption is the proved judge's, and the pairs that trade places are those of the proved reason tool. All conflicting pairs are
//! found here by running through the iterations; the set of their vectors is compared with the proved listing, and there is no picture where they
//! differ, or where a pair that trades places is not among them.

mod caption;
mod conflicts;
mod figure;
mod panel;
mod svg;

use crate::answers::{Judgement, Place, Refusal};
use crate::nest::Nest;
use crate::space;
use crate::text::Names;
use crate::ticket::Ticket;
use crate::{list, why};
use caption::Caption;
use conflicts::Conflicts;
use panel::{Panel, View};
use std::collections::BTreeSet;
use std::error::Error;
use std::fmt;

/// The most pairs that the reason tool is asked for. Arrows beyond them are red by the places of their iterations.
const MOST_PAIRS: usize = 65_536;

/// A drawn ticket.
#[derive(Clone, PartialEq, Eq, Debug)]
#[non_exhaustive]
pub struct Picture {
    /// The picture, as a document of its own.
    pub svg: String,
    /// The judge's answer, which the caption says.
    pub answer: Result<Judgement, Refusal>,
}

/// Why a ticket has no picture.
#[derive(Clone, PartialEq, Eq, Debug)]
pub enum NoPicture {
    /// It is refused before its iterations are known, with a number from 1 to 9.
    Refused(Refusal),
    /// The pairs that were found do not have the vectors of the proved listing, or lack one that the reason tool gives: a defect of the drawing.
    Differs,
}

impl fmt::Display for NoPicture {
    fn fmt(&self, f: &mut fmt::Formatter<'_>) -> fmt::Result {
        match self {
            NoPicture::Refused(refusal) => refusal.fmt(f),
            NoPicture::Differs => f.write_str("the pairs to be drawn are not those of the listing and of 'why': a defect of the drawing"),
        }
    }
}

impl Error for NoPicture {}

/// Draws a ticket, as an SVG. Names are those of the ticket's own indices and arrays.
///
/// # Errors
///
/// Where the ticket is refused with a number from 1 to 9.
///
/// ```
/// use hurkeztor::{Nest, Ticket, draw, text::Names};
/// let nest: Nest = "array A(7)\nfor i = 0 to 6\n  A(i) = A(6-i)\nreverse 1".parse()?;
/// let picture = draw::picture(&Ticket::from_nest(&nest)?, &Names::of(&nest))?;
/// assert!(picture.svg.contains("refused 10 at step 1, out of order"));
/// # Ok::<(), Box<dyn std::error::Error>>(())
/// ```
pub fn picture(ticket: &Ticket, names: &Names) -> Result<Picture, NoPicture> {
    let listing = list(ticket).map_err(NoPicture::Refused)?;
    let reason = why(ticket, MOST_PAIRS);
    let answer = reason.judgement();
    let nest = ticket.nest().map_err(|_| NoPicture::Differs)?;
    let before = space::points(&nest);
    let conflicts = Conflicts::find(&nest, &before);
    let vectors: BTreeSet<_> = listing.directions.into_iter().map(|direction| direction.vector).collect();
    if conflicts.vectors(&before) != vectors || before.len() != listing.iterations as usize {
        return Err(NoPicture::Differs);
    }
    let steps = &nest.steps[..steps_drawn(&nest, &answer)];
    let after = space::moved(&before, steps);
    let traded = conflicts.traded(&reason, &before, &after).ok_or(NoPicture::Differs)?;
    let panels = [
        Panel {
            points: &before,
            names: names.indices.clone(),
            title: if steps.is_empty() { "The nest" } else { "Before" }.into(),
        },
        Panel {
            points: &after,
            names: names.after(steps).indices,
            title: caption::after_title(&nest, steps.len()),
        },
    ];
    let shown = if steps.is_empty() { &panels[..1] } else { &panels[..] };
    let nearest = conflicts.nearest(&before, &after, &traded);
    let views: Vec<View> = shown.iter().map(|panel| panel.view(&conflicts, &traded, nearest)).collect();
    let caption = Caption {
        answer: &answer,
        steps,
        vectors: &vectors,
        traded: &traded,
        panels: shown,
    };
    Ok(Picture {
        svg: svg::document(&views, &caption.lines(&views)),
        answer,
    })
}

/// All steps, or those up to the one that is refused.
fn steps_drawn(nest: &Nest, answer: &Result<Judgement, Refusal>) -> usize {
    match answer {
        Err(Refusal { place: Place::Step(n), .. }) => (*n as usize).min(nest.steps.len()),
        _ => nest.steps.len(),
    }
}

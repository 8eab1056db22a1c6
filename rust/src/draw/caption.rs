//! What the caption says.

use super::conflicts::Traded;
use super::panel::{Panel, View};
use crate::answers::{Judgement, Refusal};
use crate::listing::Sign;
use crate::nest::{Nest, Step};
use std::collections::BTreeSet;

/// The most vectors that are named.
const VECTORS: usize = 12;

pub struct Caption<'a> {
    pub answer: &'a Result<Judgement, Refusal>,
    pub steps: &'a [Step],
    pub vectors: &'a BTreeSet<Vec<Sign>>,
    pub traded: &'a Traded,
    pub panels: &'a [Panel<'a>],
}

pub fn after_title(nest: &Nest, steps: usize) -> String {
    let named = |n: usize| nest.steps.get(n).map_or(String::new(), Step::to_string);
    match steps {
        0 => String::new(),
        1 => format!("After step 1, {}", named(0)),
        n => format!("After steps 1 to {n}, the last {}", named(n - 1)),
    }
}

impl Caption<'_> {
    /// The answer first, then a sentence or two on each line.
    pub fn lines(&self, views: &[View]) -> Vec<String> {
        let answer = match self.answer {
            Ok(judgement) => judgement.to_string(),
            Err(refusal) => refusal.to_string(),
        };
        let mut lines = vec![answer, self.order()];
        lines.extend(self.beyond());
        lines.extend(self.steps_named());
        lines.extend(self.vectors_named());
        lines.extend(self.projection());
        lines.extend(self.left_out(views));
        lines
    }

    fn order(&self) -> String {
        let (pairs, all) = (self.traded.pairs, self.traded.all);
        let plural = if all == 1 { "pair" } else { "pairs" };
        match self.answer {
            Err(refusal) if refusal.number == 10 && pairs == 0 => format!(
                "None of the {all} conflicting {plural} of iterations trades places: the step is refused by the table of signs alone."
            ),
            Err(refusal) if refusal.number == 10 => format!("{pairs} of {all} conflicting {plural} of iterations trade places."),
            Err(refusal) => format!("No pair trades places. The refusal has another reason: {}.", refusal.meaning()),
            Ok(_) if all == 0 => "No two iterations conflict.".into(),
            Ok(_) if self.steps.is_empty() && all == 1 => "1 pair of iterations conflicts.".into(),
            Ok(_) if self.steps.is_empty() => format!("{all} pairs of iterations conflict."),
            Ok(_) if all == 1 => "The one conflicting pair of iterations keeps its order.".into(),
            Ok(_) => format!("All {all} conflicting pairs of iterations keep their order."),
        }
    }

    fn beyond(&self) -> Option<String> {
        let beyond = self.traded.beyond.as_ref()?;
        Some(format!(
            "Red by the first {} of {} records of the reason tool; beyond them, by the places of their iterations.",
            beyond.lent, beyond.records
        ))
    }

    fn steps_named(&self) -> Option<String> {
        let named = self.steps.iter().enumerate().map(|(n, step)| format!("{} {step}", n + 1));
        (self.steps.len() > 1).then(|| format!("Steps drawn: {}.", named.collect::<Vec<_>>().join("; ")))
    }

    fn vectors_named(&self) -> Option<String> {
        let named: Vec<String> = self
            .vectors
            .iter()
            .take(VECTORS)
            .map(|vector| vector.iter().map(Sign::to_string).collect())
            .collect();
        let more = match self.vectors.len().saturating_sub(VECTORS) {
            0 => String::new(),
            n => format!(" and {n} more"),
        };
        (!named.is_empty()).then(|| format!("Directions before: {}{more}.", named.join(", ")))
    }

    fn projection(&self) -> Option<String> {
        let deeper = self.panels.iter().any(|panel| !panel.deeper().is_empty());
        deeper.then(|| "Only the two outermost loops are drawn; a point stands for all its iterations of deeper loops.".into())
    }

    fn left_out(&self, views: &[View]) -> Option<String> {
        let all = self.traded.all;
        let drawn = |view: &View| {
            let within = if view.inside > 0 {
                format!(" ({} within one point)", view.inside)
            } else {
                String::new()
            };
            format!(
                "{} of {} points, {} of {all} pairs{within}",
                view.spots.len(),
                view.all_spots,
                view.drawn
            )
        };
        let whole = |view: &View| view.spots.len() == view.all_spots && view.drawn == all;
        match views {
            views if views.iter().all(whole) => None,
            [before, after] if drawn(before) == drawn(after) => Some(format!("Drawn before and after: {}.", drawn(before))),
            [before, after] => Some(format!("Drawn before: {}. Drawn after: {}.", drawn(before), drawn(after))),
            views => views.first().map(|view| format!("Drawn: {}.", drawn(view))),
        }
    }
}

//! One panel of a picture: what part of a space is in sight, and its arrows.

use super::conflicts::{Conflicts, Traded};
use std::collections::{BTreeMap, BTreeSet};
use std::ops::RangeInclusive;

/// The most values of an index that are all in sight, and how many are where there are more.
const WHOLE: i64 = 12;
const SIGHT: i64 = 8;
/// The most arrows of a panel, and of those that trade places.
const ARROWS: usize = 64;
const TRADING: usize = 44;

/// The row and column of a projected point.
pub type Spot = (i64, i64);

/// The two outermost indices: rows and columns, or one row.
pub fn project(point: &[i64]) -> Spot {
    match point {
        [row, column, ..] => (*row, *column),
        [column] => (0, *column),
        [] => (0, 0),
    }
}

/// A space to be drawn: its points, in the order of the old nest, and the names of its indices.
pub struct Panel<'a> {
    pub points: &'a [Vec<i64>],
    pub names: Vec<String>,
    pub title: String,
}

/// What is in sight of a panel.
pub struct View {
    pub title: String,
    /// The names of rows and columns; no rows with one loop.
    pub row_name: Option<String>,
    pub column_name: String,
    pub rows: Sight,
    pub columns: Sight,
    /// How many points there are, in sight or not.
    pub all_spots: usize,
    /// The points in sight in their order of execution, with the number in the old order where it is one iteration.
    pub spots: Vec<(Spot, Option<usize>)>,
    pub arrows: Vec<Arrow>,
    /// How many pairs the arrows stand for, and how many lie within one point in sight.
    pub drawn: usize,
    pub inside: usize,
}

/// The values of an index that are in sight, and whether there are others below and above.
pub struct Sight {
    pub values: RangeInclusive<i64>,
    pub below: bool,
    pub above: bool,
}

/// Conflicting pairs between two points.
#[derive(Clone, Copy, PartialEq, Eq, PartialOrd, Ord)]
pub struct Arrow {
    /// Those that do not trade places come after those that do.
    pub keeps: bool,
    length: i64,
    pub from: Spot,
    pub to: Spot,
}

impl Panel<'_> {
    /// The loops deeper than those that are drawn.
    pub fn deeper(&self) -> &[String] {
        self.names.get(2..).unwrap_or(&[])
    }

    pub fn view(&self, conflicts: &Conflicts, traded: &Traded, nearest: Option<(usize, usize)>) -> View {
        let spots: Vec<Spot> = self.points.iter().map(|point| project(point)).collect();
        let middle = nearest.map(|(a, b)| ((spots[a].0 + spots[b].0).div_euclid(2), (spots[a].1 + spots[b].1).div_euclid(2)));
        let rows = Sight::of(spots.iter().map(|spot| spot.0), middle.map(|spot| spot.0));
        let columns = Sight::of(spots.iter().map(|spot| spot.1), middle.map(|spot| spot.1));
        let seen = |spot: &Spot| rows.values.contains(&spot.0) && columns.values.contains(&spot.1);
        let projected = self.names.len() > 2;
        let mut visible: BTreeMap<Spot, Option<usize>> = BTreeMap::new();
        for (number, spot) in spots.iter().enumerate().filter(|(_, spot)| seen(spot)) {
            visible.insert(*spot, (!projected).then_some(number + 1));
        }
        let (drawn, inside) = arrows(conflicts, traded, &spots, seen);
        View {
            title: self.title.clone(),
            row_name: (self.names.len() > 1).then(|| self.names[0].clone()),
            column_name: self.names.get(1).or(self.names.first()).cloned().unwrap_or_default(),
            all_spots: spots.iter().collect::<BTreeSet<_>>().len(),
            spots: visible.into_iter().collect(),
            drawn: drawn.iter().map(|(_, count)| count).sum(),
            arrows: drawn.into_iter().map(|(arrow, _)| arrow).collect(),
            inside,
            rows,
            columns,
        }
    }
}

/// The arrows to be drawn, each with the count of its pairs, and the count of pairs within one point.
fn arrows(conflicts: &Conflicts, traded: &Traded, spots: &[Spot], seen: impl Fn(&Spot) -> bool) -> (Vec<(Arrow, usize)>, usize) {
    let mut inside = 0;
    let mut counts: BTreeMap<Arrow, usize> = BTreeMap::new();
    for pair in conflicts.pairs() {
        let (from, to) = (spots[pair.0], spots[pair.1]);
        if from == to {
            inside += 1;
        } else if seen(&from) && seen(&to) {
            let length = (from.0 - to.0).pow(2) + (from.1 - to.1).pow(2);
            *counts
                .entry(Arrow {
                    keeps: !traded.trades(pair),
                    length,
                    from,
                    to,
                })
                .or_default() += 1;
        }
    }
    let trading = counts.iter().filter(|(arrow, _)| !arrow.keeps).take(TRADING);
    let keeping = counts.iter().filter(|(arrow, _)| arrow.keeps);
    let drawn: Vec<(Arrow, usize)> = trading.chain(keeping).take(ARROWS).map(|(arrow, count)| (*arrow, *count)).collect();
    (drawn, inside)
}

impl Sight {
    /// All values, or as many as are in sight around the middle.
    fn of(values: impl Iterator<Item = i64> + Clone, middle: Option<i64>) -> Sight {
        let (least, greatest) = (values.clone().min().unwrap_or(0), values.max().unwrap_or(0));
        if greatest - least < WHOLE {
            return Sight {
                values: least..=greatest,
                below: false,
                above: false,
            };
        }
        let start = middle.map_or(least, |middle| (middle - SIGHT / 2).clamp(least, greatest - SIGHT + 1));
        let end = start + SIGHT - 1;
        Sight {
            values: start..=end,
            below: start > least,
            above: end < greatest,
        }
    }
}

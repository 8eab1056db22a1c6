//! The conflicting pairs of iterations.

use super::panel::project;
use crate::listing::Sign;
use crate::nest::{Access, Nest};
use crate::reason::Reason;
use crate::space::{self, affine};
use std::collections::BTreeSet;

/// Pairs of iterations, which are numbered from 0 in the old order; the earlier one first.
struct Pairs {
    iterations: usize,
    /// One bit for each pair.
    bits: Vec<u64>,
}

impl Pairs {
    fn none(iterations: usize) -> Pairs {
        Pairs {
            iterations,
            bits: vec![0; (iterations * iterations).div_ceil(64)],
        }
    }

    fn put(&mut self, (a, b): (usize, usize)) {
        let bit = a * self.iterations + b;
        self.bits[bit / 64] |= 1 << (bit % 64);
    }

    fn has(&self, (a, b): (usize, usize)) -> bool {
        let bit = a * self.iterations + b;
        self.bits[bit / 64] >> (bit % 64) & 1 == 1
    }

    fn iter(&self) -> impl Iterator<Item = (usize, usize)> {
        let words = self.bits.iter().enumerate().filter(|(_, word)| **word != 0);
        words.flat_map(move |(n, &word)| {
            let bits = (0..64).filter(move |bit| word >> bit & 1 == 1);
            bits.map(move |bit| ((n * 64 + bit) / self.iterations, (n * 64 + bit) % self.iterations))
        })
    }
}

/// Which iterations conflict with which later ones.
pub struct Conflicts {
    pairs: Pairs,
    /// Whether different statements conflict within one iteration.
    within: bool,
}

/// One access of one iteration: element, iteration, statement, whether it writes.
type Touch = (usize, usize, usize, bool);

/// Which of them trade places.
pub struct Traded {
    /// Those that the reason tool gives.
    given: Pairs,
    pub beyond: Option<Beyond>,
    pub pairs: usize,
    pub all: usize,
}

/// Where the reason tool has more records than it was lent: pairs behind the last that it gives are told by the places of their iterations.
pub struct Beyond {
    pub records: usize,
    pub lent: usize,
    last: (usize, usize),
    /// The place of each iteration in the new order.
    ranks: Vec<usize>,
}

impl Traded {
    pub fn trades(&self, pair: (usize, usize)) -> bool {
        match &self.beyond {
            Some(beyond) if pair > beyond.last => beyond.ranks[pair.0] > beyond.ranks[pair.1],
            _ => self.given.has(pair),
        }
    }
}

impl Conflicts {
    pub fn find(nest: &Nest, points: &[Vec<i64>]) -> Conflicts {
        let mut found = Conflicts {
            pairs: Pairs::none(points.len()),
            within: false,
        };
        let mut touches = touches(nest, points);
        touches.sort_unstable();
        for element in touches.chunk_by(|a, b| a.0 == b.0) {
            let mut visits: Vec<(usize, bool)> = Vec::new();
            for visit in element.chunk_by(|a, b| a.1 == b.1) {
                let writes = visit.iter().any(|touch| touch.3);
                found.within |= visit.iter().any(|a| a.3 && visit.iter().any(|b| a.2 != b.2));
                visits.push((visit[0].1, writes));
            }
            for (n, &(a, a_writes)) in visits.iter().enumerate() {
                for &(b, _) in visits[n + 1..].iter().filter(|(_, b_writes)| a_writes || *b_writes) {
                    found.pairs.put((a, b));
                }
            }
        }
        found
    }

    /// The pairs, the earlier iteration first.
    pub fn pairs(&self) -> impl Iterator<Item = (usize, usize)> {
        self.pairs.iter()
    }

    /// The vectors of all pairs.
    pub fn vectors(&self, points: &[Vec<i64>]) -> BTreeSet<Vec<Sign>> {
        let depth = points.first().map_or(0, Vec::len);
        let mut marks = vec![false; 3usize.pow(depth as u32)];
        for (a, b) in self.pairs() {
            let signs = points[a].iter().zip(&points[b]).map(|(x, y)| Sign::of(*x, *y));
            let mark = signs.fold(0, |mark, sign| mark * 3 + sign as usize);
            marks[mark] = true;
        }
        let mut vectors: BTreeSet<Vec<Sign>> = (0..marks.len())
            .filter(|&mark| marks[mark])
            .map(|mark| signs(mark, depth))
            .collect();
        if self.within {
            vectors.insert(vec![Sign::Equal; depth]);
        }
        vectors
    }

    /// Which pairs trade places by the reason tool, where the iterations `before` the steps are at `after` behind the refused one. Nothing where it
    /// gives a pair that is none of these.
    pub fn traded(&self, reason: &Reason, before: &[Vec<i64>], after: &[Vec<i64>]) -> Option<Traded> {
        let mut traded = Traded {
            given: Pairs::none(before.len()),
            beyond: None,
            pairs: 0,
            all: 0,
        };
        if let Reason::Pairs { count, pairs, .. } = reason {
            let mut last = (0, 0);
            for pair in pairs {
                last = (number(before, &pair.source)?, number(before, &pair.sink)?);
                if !self.pairs.has(last) {
                    return None;
                }
                traded.given.put(last);
            }
            let (records, lent) = (*count as usize, pairs.len());
            traded.beyond = (lent < records).then(|| Beyond {
                records,
                lent,
                last,
                ranks: space::ranks(after),
            });
        }
        for pair in self.pairs() {
            traded.all += 1;
            traded.pairs += usize::from(traded.trades(pair));
        }
        Some(traded)
    }

    /// The pair that should be in sight: one that trades places before others, and then the shortest.
    pub fn nearest(&self, before: &[Vec<i64>], after: &[Vec<i64>], traded: &Traded) -> Option<(usize, usize)> {
        let length = |points: &[Vec<i64>], (a, b): (usize, usize)| {
            let ((r1, c1), (r2, c2)) = (project(&points[a]), project(&points[b]));
            (r1 - r2).abs() + (c1 - c2).abs()
        };
        self.pairs()
            .min_by_key(|&pair| (!traded.trades(pair), length(before, pair) + length(after, pair), pair))
    }
}

/// The number of an iteration in the old order.
fn number(points: &[Vec<i64>], iteration: &[i16]) -> Option<usize> {
    let indices = iteration.iter().map(|index| i64::from(*index));
    points.binary_search_by(|point| point.iter().copied().cmp(indices.clone())).ok()
}

fn signs(mark: usize, depth: usize) -> Vec<Sign> {
    let sign = |place: usize| [Sign::Less, Sign::Equal, Sign::Greater][mark / 3usize.pow((depth - 1 - place) as u32) % 3];
    (0..depth).map(sign).collect()
}

fn touches(nest: &Nest, points: &[Vec<i64>]) -> Vec<Touch> {
    let mut touches = Vec::new();
    for (iteration, point) in points.iter().enumerate() {
        for (number, statement) in nest.statements.iter().enumerate() {
            touches.push((element(nest, &statement.write, point), iteration, number, true));
            touches.extend(
                statement
                    .reads
                    .iter()
                    .map(|read| (element(nest, read, point), iteration, number, false)),
            );
        }
    }
    touches
}

/// The place of the element in the store.
fn element(nest: &Nest, access: &Access, point: &[i64]) -> usize {
    let offset: usize = nest.arrays[..access.array - 1].iter().map(|array| array.elements()).sum();
    let extents = &nest.arrays[access.array - 1].extents;
    let within = access.subscripts.iter().zip(extents).fold(0, |place, (subscript, &extent)| {
        place * i64::from(extent) + affine(subscript.constant, &subscript.coefficients, point)
    });
    offset + within as usize
}

#[cfg(test)]
mod tests {
    use super::*;
    use crate::listing::Kind;
    use crate::reason::Pair;

    fn reason(source: i16, sink: i16) -> Reason {
        let pair = Pair {
            source: vec![source],
            sink: vec![sink],
            source_statement: 1,
            sink_statement: 1,
            kind: Kind::Flow,
        };
        Reason::Pairs {
            step: 1,
            count: 1,
            pairs: vec![pair],
        }
    }

    #[test]
    fn a_pair_that_does_not_conflict_is_told() {
        let nest: Nest = "array A(5)\nfor i = 1 to 4\n  A(i) = A(i-1)\nreverse 1".parse().expect("a nest");
        let before = space::points(&nest);
        let after = space::moved(&before, &nest.steps);
        let conflicts = Conflicts::find(&nest, &before);
        let traded = |source, sink| conflicts.traded(&reason(source, sink), &before, &after);
        assert!(traded(1, 2).is_some_and(|traded| (traded.pairs, traded.all) == (1, 3)));
        for (source, sink) in [(1, 3), (2, 1), (1, 5), (0, 1)] {
            assert!(traded(source, sink).is_none(), "{source} and {sink}");
        }
    }
}

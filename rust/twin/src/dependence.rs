//! The search for dependences along chains of points by element.

use std::array::from_fn;
use std::ops::Range;

use crate::directions::{power, sign_at};
use crate::elements::numbers;
use crate::points::Points;
use crate::ticket::Nest;

/// The lines of a listing: for each source, sink and kind one mark for each vector.
pub struct Lines {
    pub statements: usize,
    pub depth: usize,
    pub marks: Vec<bool>,
}

impl Lines {
    /// How many vectors there are.
    pub fn vectors(&self) -> usize {
        power(self.depth)
    }

    /// Where the marks of a pair are.
    pub fn block(&self, pair: &Pair) -> Range<usize> {
        let size = self.vectors();
        let row = (pair.source.statement * self.statements + pair.sink.statement) * 3 + pair.kind;
        row * size..(row + 1) * size
    }
}

/// An access of a statement, and whether it is the one that is written.
#[derive(Clone, Copy)]
pub struct Use {
    statement: usize,
    writes: bool,
    pub access: usize,
}

pub fn uses(nest: &Nest) -> impl Iterator<Item = Use> {
    nest.statements.iter().enumerate().flat_map(|(statement, one)| {
        (one.first..=one.first + one.reads).map(move |access| Use {
            statement,
            writes: access == one.first,
            access,
        })
    })
}

/// Two accesses of one array of which one writes at least. Of kinds flow is 0, anti 1, output 2.
pub struct Pair {
    pub source: Use,
    pub sink: Use,
    kind: usize,
}

impl Pair {
    fn new(nest: &Nest, source: Use, sink: Use) -> Option<Pair> {
        if nest.accesses[source.access].array != nest.accesses[sink.access].array {
            return None;
        }
        let kind = match (source.writes, sink.writes) {
            (true, false) => 0,
            (false, true) => 1,
            (true, true) => 2,
            (false, false) => return None,
        };
        Some(Pair { source, sink, kind })
    }

    /// A statement's own iteration counts where the source stands before the sink.
    fn own(&self) -> bool {
        self.source.statement < self.sink.statement
    }

    /// The end of the vectors that it can have: those that do not point backwards, and that of one point alone if `own`.
    pub fn end(&self, depth: usize) -> usize {
        power(depth) / 2 + self.own() as usize
    }
}

pub fn pairs(nest: &Nest, uses: &[Use]) -> impl Iterator<Item = Pair> {
    uses.iter()
        .flat_map(move |source| uses.iter().filter_map(move |sink| Pair::new(nest, *source, *sink)))
}

/// The number of the vector of two points.
fn vector<const D: usize>(source: &[i32; D], sink: &[i32; D]) -> usize {
    let signs = (0..D).map(|k| {
        let weight = power(D - 1 - k) as i32;
        let greater = if source[k] > sink[k] { weight } else { 0 };
        let smaller = if source[k] < sink[k] { weight } else { 0 };
        greater - smaller
    });
    (signs.sum::<i32>() + power(D) as i32 / 2) as usize
}

/// For each point y, one more than the last point before it (or up to it, if `own`) that has its element in `to` in `from`, or 0.
/// Says whether there is a link. No element has a head before and after.
fn link(from: &[u16], to: &[u16], own: bool, head: &mut [u16], links: &mut [u16]) -> bool {
    let mut any = false;
    for (y, ((from, to), link)) in from.iter().zip(to).zip(&mut *links).enumerate() {
        let before = head[*to as usize];
        head[*from as usize] = y as u16 + 1;
        *link = if own { head[*to as usize] } else { before };
        any |= *link != 0;
    }
    // The points may be far fewer than the elements.
    from.iter().for_each(|from| head[*from as usize] = 0);
    any
}

/// The links of the sources and of the sinks of two accesses.
struct Chains<'a, const D: usize> {
    points: &'a [[i32; D]],
    next: &'a [u16],
    start: &'a [u16],
}

impl<const D: usize> Chains<'_, D> {
    /// Marks the vectors of the sink y with the chain of sources that begins at `first`, and counts them.
    fn walk(&self, y: usize, first: u16, marks: &mut [bool]) -> usize {
        let sink = &self.points[y];
        let (mut link, mut seen) = (first, 0);
        while link != 0 {
            let x = link as usize - 1;
            marks[vector(&self.points[x], sink)] = true;
            link = self.next[x];
            seen += 1;
        }
        seen
    }

    /// Whether the index of loop k at some point differs from that at the point of its link.
    fn varies(&self, k: usize) -> bool {
        let changes = |(x, link): (usize, &u16)| *link != 0 && self.points[*link as usize - 1][k] != self.points[x][k];
        self.next.iter().enumerate().any(changes) || self.start.iter().enumerate().any(changes)
    }

    /// The vectors below `end` that the conflicts can have: = at every loop that does not vary.
    fn possible(&self, end: usize) -> Vec<usize> {
        let varies: [bool; D] = from_fn(|k| self.varies(k));
        let can = |number: &usize| (0..D).all(|k| varies[k] || sign_at(*number, D, k) == 1);
        (0..end).filter(can).collect()
    }

    /// Marks the vectors of all conflicts. Left once there is nothing more to find.
    fn follow(&self, end: usize, marks: &mut [bool]) {
        let mut possible = None;
        let mut found = 0;
        let mut spent = 0;
        for (y, first) in self.start.iter().enumerate() {
            spent += self.walk(y, *first, marks);
            if spent > 64 {
                let possible = possible.get_or_insert_with(|| self.possible(end));
                found += possible[found..].iter().take_while(|number| marks[**number]).count();
                if found == possible.len() {
                    break;
                }
            }
        }
    }
}

fn places<'a>(numbers: &'a [u16], points: &Points, one: Use) -> &'a [u16] {
    &numbers[one.access * points.count..][..points.count]
}

/// Those that differ: a read that a statement makes twice is searched once.
fn distinct(nest: &Nest, points: &Points, numbers: &[u16]) -> Vec<Use> {
    let places = |one: &Use| places(numbers, points, *one);
    let alike = |one: &Use, other: &Use| one.statement == other.statement && one.writes == other.writes && places(one) == places(other);
    let mut distinct: Vec<Use> = Vec::with_capacity(nest.accesses.len());
    uses(nest).for_each(|new| {
        if !distinct.iter().any(|old| alike(old, &new)) {
            distinct.push(new);
        }
    });
    distinct
}

fn search_all<const D: usize>(nest: &Nest, points: &Points, lines: &mut Lines) {
    let numbers = numbers(nest, points);
    let uses = distinct(nest, points, &numbers);
    let places = |one| places(&numbers, points, one);
    let mut head = vec![0; nest.elements()];
    let (mut next, mut start) = (vec![0; points.count], vec![0; points.count]);
    for source in &uses {
        let from = places(*source);
        link(from, from, false, &mut head, &mut next);
        for pair in uses.iter().filter_map(|sink| Pair::new(nest, *source, *sink)) {
            if link(from, places(pair.sink), pair.own(), &mut head, &mut start) {
                let chains = Chains::<D> {
                    points: points.rows(),
                    next: &next,
                    start: &start,
                };
                let block = lines.block(&pair);
                chains.follow(pair.end(D), &mut lines.marks[block]);
            }
        }
    }
}

/// Every line that has its source and its sink at these points of a nest.
pub fn lines_at(nest: &Nest, points: &Points) -> Lines {
    let (statements, depth) = (nest.statements.len(), nest.loops.len());
    let mut lines = Lines {
        statements,
        depth,
        marks: vec![false; statements * statements * 3 * power(depth)],
    };
    at_depth!(depth, search_all(nest, points, &mut lines));
    lines
}

/// How many pairs of accesses the search would meet if it left none out.
pub fn conflicts(nest: &Nest, points: &Points) -> u64 {
    let numbers = numbers(nest, points);
    let uses = distinct(nest, points, &numbers);
    let mut total = 0;
    for pair in pairs(nest, &uses) {
        let [source, sink] = [pair.source, pair.sink].map(|one| places(&numbers, points, one));
        let mut named = vec![0; nest.elements()];
        for (from, to) in source.iter().zip(sink) {
            let before = named[*to as usize];
            named[*from as usize] += 1;
            total += if pair.own() { named[*to as usize] } else { before };
        }
    }
    total
}

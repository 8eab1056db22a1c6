//! Which instances trade places: request L2 of document 02.

use crate::directions::Kind;
use crate::points::Point;
use crate::ticket::{Nest, Statement, Step};

/// A pair record: two instances and one kind of their conflict. Indices of loops that are not there are 0, statements are counted from 1, and the
/// kind is its letter.
#[derive(Clone, Copy, PartialEq, Eq, Debug)]
pub struct Record {
    pub source: [i16; 4],
    pub sink: [i16; 4],
    pub source_statement: u16,
    pub sink_statement: u16,
    pub kind: u16,
}

fn taken(step: &Step, point: &mut Point) {
    match *step {
        Step::Exchange { a } => point.swap(a, a + 1),
        Step::Reversal { a } => point[a] = -point[a],
        Step::Skew { a, b, c } => point[b] += c * point[a],
        Step::Section { a, width } => {
            let index = point[a];
            point[a] = index.div_euclid(width);
            point.insert(a + 1, index.rem_euclid(width));
        }
        Step::Circulation { a, b } => {
            let index = point.remove(a);
            point.insert(b, index);
        }
    }
}

/// Where the steps, the first one first, bring an iteration.
pub fn forward(steps: &[Step], point: &Point) -> Point {
    let mut place = point.clone();
    for step in steps {
        taken(step, &mut place);
    }
    place
}

/// The elements that a statement writes and reads in an iteration.
struct Instance {
    written: usize,
    read: Vec<usize>,
}

fn instances(nest: &Nest, point: &Point) -> Vec<Instance> {
    let instance = |s: &Statement| Instance {
        written: nest.element(&s.write, point),
        read: s.reads.iter().map(|access| nest.element(access, point)).collect(),
    };
    nest.statements.iter().map(instance).collect()
}

fn conflict(kind: Kind, source: &Instance, sink: &Instance) -> bool {
    match kind {
        Kind::F => sink.read.contains(&source.written),
        Kind::A => source.read.contains(&sink.written),
        Kind::O => source.written == sink.written,
    }
}

fn letter(kind: Kind) -> u16 {
    match kind {
        Kind::F => u16::from(b'F'),
        Kind::A => u16::from(b'A'),
        Kind::O => u16::from(b'O'),
    }
}

/// Four indices, 0 for loops that are not there.
fn indices(point: &Point) -> [i16; 4] {
    let mut four = [0; 4];
    for (index, place) in point.iter().zip(&mut four) {
        *place = i16::try_from(*index).expect("an index within ±32767");
    }
    four
}

/// Every conflict of two instances whose source comes first in the old order and whose sink comes first after the steps: by source iteration, sink
/// iteration, source statement, sink statement and kind. `points` are the iterations in the old order.
pub fn traded(nest: &Nest, points: &[Point], steps: &[Step], mut found: impl FnMut(Record)) {
    let places: Vec<Point> = points.iter().map(|point| forward(steps, point)).collect();
    let all: Vec<Vec<Instance>> = points.iter().map(|point| instances(nest, point)).collect();
    for (p, sources) in all.iter().enumerate() {
        // The instances of one iteration stay together, so that the sink is in a later one.
        for (q, sinks) in all.iter().enumerate().skip(p + 1) {
            if places[p] < places[q] {
                continue;
            }
            for (s, source) in sources.iter().enumerate() {
                for (t, sink) in sinks.iter().enumerate() {
                    for kind in [Kind::F, Kind::A, Kind::O] {
                        if conflict(kind, source, sink) {
                            found(Record {
                                source: indices(&points[p]),
                                sink: indices(&points[q]),
                                source_statement: s as u16 + 1,
                                sink_statement: t as u16 + 1,
                                kind: letter(kind),
                            });
                        }
                    }
                }
            }
        }
    }
}

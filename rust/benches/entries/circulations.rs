//! A circulation beside its exchanges as steps, on few iterations, so that the steps count. Both sides are proved, since the twin knows no
//! circulations.

use crate::calls::{ENTRIES, Entry, Subject};
use crate::timing::{Effort, batch, calls_for};

/// A nest, perhaps with steps, and the loop that is then moved.
struct Nest {
    name: &'static str,
    text: fn() -> String,
    from: usize,
    to: usize,
}

const NESTS: [Nest; 4] = [
    Nest {
        name: "matrix product, inwards",
        text: || matrix_product([2, 3, 4]),
        from: 1,
        to: 3,
    },
    Nest {
        name: "matrix product, outwards",
        text: || matrix_product([2, 3, 4]),
        from: 3,
        to: 1,
    },
    Nest {
        name: "triangles, outwards",
        text: || triangles(3),
        from: 4,
        to: 1,
    },
    Nest {
        name: "six loops, inwards",
        text: || format!("{}\nsection 1 by 2\nsection 3 by 2", triangles(3)),
        from: 1,
        to: 6,
    },
];

fn matrix_product([rows, columns, depth]: [u32; 3]) -> String {
    format!(
        "array C({rows}, {columns})
         array A({rows}, {depth})
         array B({depth}, {columns})
         for i = 0 to {rows}-1
           for j = 0 to {columns}-1
             for k = 0 to {depth}-1
               C(i, j) = C(i, j) + A(i, k) + B(k, j)"
    )
}

/// No two iterations write one element, so that every order is accepted.
fn triangles(side: u32) -> String {
    format!(
        "array A({side}, {side}, {square})
         for i = 0 to {side}-1
           for j = 0 to i
             for k = 0 to {side}-1
               for l = 0 to k
                 A(i, j, {side}*k+l) = 1",
        square = side * side
    )
}

/// The steps that bring a loop to a place by exchanges.
fn exchanges(from: usize, to: usize) -> String {
    let inwards = (from..to).map(|at| format!("exchange {at} {}\n", at + 1));
    let outwards = (to..from).rev().map(|at| format!("exchange {at} {}\n", at + 1));
    inwards.chain(outwards).collect()
}

/// A ticket, how often it is called in a batch, and the least time of a call so far, in nanoseconds.
struct Side {
    subject: Subject,
    calls: u32,
    time: f64,
}

impl Side {
    fn new(text: &str, entry: &Entry, effort: &Effort) -> Side {
        let mut subject = Subject::of(text);
        let calls = calls_for(effort.batch, || subject.call(entry.proved));
        Side {
            subject,
            calls,
            time: f64::INFINITY,
        }
    }

    fn batch(&mut self, entry: &Entry) {
        let subject = &mut self.subject;
        self.time = self.time.min(batch(self.calls, || subject.call(entry.proved)));
    }
}

struct Row {
    name: &'static str,
    circulation: Side,
    exchanges: Side,
}

impl Row {
    fn new(nest: &Nest, entry: &Entry, effort: &Effort) -> Row {
        let text = (nest.text)();
        let mut row = Row {
            name: nest.name,
            circulation: Side::new(&format!("{text}\nmove {} to {}", nest.from, nest.to), entry, effort),
            exchanges: Side::new(&format!("{text}\n{}", exchanges(nest.from, nest.to)), entry, effort),
        };
        row.circulation.subject.answers_as(&mut row.exchanges.subject, entry);
        row
    }

    fn print(&self) {
        let (subject, times) = (&self.circulation.subject, [self.circulation.time, self.exchanges.time]);
        println!(
            "{:<24} {:>10} {:>10} {:>12} {:>12} {:>6.2}",
            self.name,
            subject.iterations,
            subject.conflicts,
            crate::duration(times[0]),
            crate::duration(times[1]),
            times[0] / times[1]
        );
    }
}

/// Judge and write of the rows that are wanted.
pub fn bench(effort: &Effort, wanted: impl Fn(&str) -> bool) {
    for entry in &ENTRIES[..2] {
        let nests = NESTS
            .iter()
            .filter(|nest| wanted(&format!("circulation {} {}", entry.name, nest.name)));
        let mut rows: Vec<Row> = nests.map(|nest| Row::new(nest, entry, effort)).collect();
        if rows.is_empty() {
            continue;
        }
        for _ in 0..effort.passes * effort.batches {
            for row in &mut rows {
                row.circulation.batch(entry);
                row.exchanges.batch(entry);
            }
        }
        println!("\na circulation beside its exchanges as steps: {}", entry.name);
        println!(
            "{:<24} {:>10} {:>10} {:>12} {:>12} {:>6}",
            "nest", "iterations", "conflicts", "circulation", "exchanges", "ratio"
        );
        rows.iter().for_each(Row::print);
    }
}

//! The reason entry, with no list, which counts alone, and with one. It has no twin.

use std::fs;
use std::hint::black_box;
use std::path::Path;

use hurkeztor::entries::{self, PairRecord};

use crate::calls::Subject;
use crate::timing::{Effort, batch, calls_for};

/// A ticket that is out of order, how many pairs trade places, and how many records are lent, one after another.
struct Case {
    name: &'static str,
    text: fn() -> String,
    pairs: u32,
    lent: &'static [usize],
}

const CASES: [Case; 9] = [
    Case {
        name: "worked case 1",
        text: || of_the_course("case-1/exchange"),
        pairs: 2,
        lent: &[0, 2],
    },
    Case {
        name: "worked case 3, by the table alone",
        text: || of_the_course("case-3/skew-then-exchange"),
        pairs: 0,
        lent: &[0],
    },
    Case {
        name: "stencil in one dimension",
        text: || sweeps(4, 1024),
        pairs: 3069,
        lent: &[0, 64],
    },
    Case {
        name: "stencil in two",
        text: || plane(64),
        pairs: 2 * 63 * 64,
        lent: &[0, 64],
    },
    Case {
        name: "sections, by the table alone",
        text: || sections(4094),
        pairs: 0,
        lent: &[0],
    },
    Case {
        name: "mirrored access",
        text: || mirrored(4096),
        pairs: 4096,
        lent: &[0, 64, 4096],
    },
    Case {
        name: "coefficient, read by all",
        text: || coefficient(4095),
        pairs: 4094,
        lent: &[0, 64],
    },
    Case {
        name: "written by one, read by all",
        text: || first_element(4096),
        pairs: 4095,
        lent: &[0, 64],
    },
    Case {
        name: "dense, one element",
        text: || one_element(4096),
        pairs: 8_386_560,
        lent: &[0, 64, 4096],
    },
];

fn of_the_course(ticket: &str) -> String {
    let file = Path::new(env!("CARGO_MANIFEST_DIR"))
        .join("../course")
        .join(format!("{ticket}.ticket"));
    fs::read_to_string(file).expect("a ticket of the course")
}

fn sweeps(sweeps: u32, width: u32) -> String {
    format!(
        "array A({}, {})
         for t = 1 to {sweeps}
           for i = 1 to {width}
             A(t, i) = A(t-1, i-1) + A(t-1, i) + A(t-1, i+1)
         exchange 1 2",
        sweeps + 1,
        width + 2
    )
}

fn plane(side: u32) -> String {
    format!(
        "array A({0}, {0})
         for i = 1 to {side}
           for j = 1 to {side}
             A(i, j) = A(i-1, j) + A(i, j-1) + A(i+1, j) + A(i, j+1)
         reverse 1",
        side + 2
    )
}

/// The distance is the width.
fn sections(count: u32) -> String {
    format!(
        "array A({})
         for i = 0 to {count}-1
           A(i+2) = A(i) + 1
         section 1 by 2
         exchange 1 2",
        count + 2
    )
}

/// What conflicts lies far apart.
fn mirrored(count: u32) -> String {
    format!(
        "array A({count})
         for i = 0 to {count}-1
           A(i) = A({}-i) + 1
         reverse 1",
        count - 1
    )
}

/// Every two iterations share an element that none of them writes.
fn coefficient(count: u32) -> String {
    format!(
        "array A({})
         array B(1)
         for i = 1 to {count}
           A(i) = A(i-1) + B(0)
         reverse 1",
        count + 1
    )
}

/// Every two iterations share an element that the first of all writes.
fn first_element(count: u32) -> String {
    format!(
        "array A({count})
         for i = 0 to {count}-1
           A(i) = A(0) + 1
         reverse 1"
    )
}

fn one_element(count: u32) -> String {
    format!(
        "array A(1)
         for i = 0 to {count}-1
           A(0) = 1
         reverse 1"
    )
}

/// A ticket with a list, how often it is called in a batch, and the least time of a call so far, in nanoseconds.
struct Row {
    name: &'static str,
    pairs: u32,
    subject: Subject,
    list: Vec<PairRecord>,
    calls: u32,
    time: f64,
}

impl Row {
    fn new(case: &Case, lent: usize, effort: &Effort) -> Row {
        let mut row = Row {
            name: case.name,
            pairs: case.pairs,
            subject: Subject::of(&(case.text)()),
            list: vec![PairRecord::default(); lent],
            calls: 1,
            time: f64::INFINITY,
        };
        let answer = entries::reason(row.subject.bytes(), &mut row.list);
        assert!(answer.number == 0 && answer.place > 0, "{}: not out of order", case.name);
        assert_eq!(answer.count, case.pairs, "{}", case.name);
        row.calls = calls_for(effort.batch, || row.call());
        row
    }

    fn call(&mut self) {
        black_box(entries::reason(black_box(self.subject.bytes()), &mut self.list));
    }

    fn batch(&mut self) {
        self.time = self.time.min(batch(self.calls, || self.call()));
    }

    fn print(&self) {
        println!(
            "{:<34} {:>10} {:>10} {:>10} {:>10}",
            self.name,
            self.subject.iterations,
            self.pairs,
            self.list.len(),
            crate::duration(self.time)
        );
    }
}

/// The rows that are wanted.
pub fn bench(effort: &Effort, wanted: impl Fn(&str) -> bool) {
    let cases = CASES.iter().filter(|case| wanted(&format!("reason {}", case.name)));
    let mut rows: Vec<Row> = cases
        .flat_map(|case| case.lent.iter().map(move |lent| Row::new(case, *lent, effort)))
        .collect();
    if rows.is_empty() {
        return;
    }
    for _ in 0..effort.passes * effort.batches {
        rows.iter_mut().for_each(Row::batch);
    }
    println!("\nreason");
    println!(
        "{:<34} {:>10} {:>10} {:>10} {:>10}",
        "ticket", "iterations", "pairs", "lent", "proved"
    );
    rows.iter().for_each(Row::print);
}

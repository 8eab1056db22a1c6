//! Prints the text that the test program of the five entries has to print for the cases on standard input.
//!
//!     cargo run --release -p reference --example expected < CASES > TEXT
//!
//! With `--sizes` it prints a line for each case instead, for whoever makes cases: how many accesses and elements its ticket has, and how many
//! bytes its new nest and its listing, `-` where there is none.

use std::env;
use std::io::{Read, stdin};

use reference::stored_cases::{Case, cases};
use reference::{Answers, Refusal, reading};

fn size<T>(found: Result<T, Refusal>, of: impl Fn(T) -> usize) -> String {
    found.map_or("-".into(), |found| of(found).to_string())
}

fn sizes(case: &Case) -> String {
    let answers = Answers::to(&case.ticket);
    let nest = reading::read(&case.ticket).map(|ticket| ticket.nest);
    let accesses = size(nest.as_ref().map_err(|r| *r), |nest| {
        nest.statements.iter().map(|s| s.accesses().count()).sum()
    });
    let elements = size(nest.as_ref().map_err(|r| *r), |nest| nest.elements() as usize);
    format!(
        "{accesses} {elements} {} {}\n",
        size(answers.new_nest(), |n| n.len()),
        size(answers.listing(), |l| l.len())
    )
}

fn main() {
    let mut bytes = vec![];
    stdin().read_to_end(&mut bytes).expect("standard input can be read");
    let each = if env::args().any(|word| word == "--sizes") {
        sizes
    } else {
        Case::expected
    };
    for case in cases(&bytes) {
        print!("{}", each(&case));
    }
}

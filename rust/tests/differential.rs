//! The six entries answer as the reference does, on 20,000 tickets of a fixed seed, 40 more of many iterations, 2,000 of indices far apart, and the
//! outside ones; reason on 20,000 more, half of which are out of order. The example `differential` does the same for as many as one likes.

mod compare;

use std::fs;
use std::path::Path;

use compare::{Compared, Tally, compare};
use reference::tickets::{far_apart_ticket, large_ticket, out_of_order_ticket, ticket};

const SEED: u64 = 20_260_101;
const TICKETS: u64 = 20_000;
const LARGE_TICKETS: u64 = 40;
const FAR_APART_TICKETS: u64 = 2_000;

/// Compares these tickets, and prints what they were answered.
fn compared(what: Compared, made: impl Fn(u64, u64) -> Vec<u8> + Copy, tickets: u64) -> Tally {
    let mut tally = Tally::default();
    for index in 0..tickets {
        if let Err(difference) = compare(what, made, SEED, index, &mut tally) {
            panic!("{difference}");
        }
    }
    println!("{tally}");
    tally
}

#[test]
fn the_entries_answer_as_the_reference() {
    let tally = compared(Compared::All, ticket, TICKETS);
    for number in 0..=16 {
        let times = tally.of_number(number);
        assert!(times >= 100, "number {number} was answered {times} times only:\n{tally}");
    }
    assert!(tally.circulating >= TICKETS * 2 / 5, "too few circulations:\n{tally}");
}

/// A third of them have pairs that trade places, and a tenth are refused by the table alone.
#[test]
fn reason_answers_as_the_reference_on_tickets_out_of_order() {
    let tally = compared(Compared::Reason, out_of_order_ticket, TICKETS);
    assert!(
        tally.with_pairs >= TICKETS / 3 && tally.table_alone >= TICKETS / 10,
        "too few are out of order:\n{tally}"
    );
}

/// They are judged without their points where that can be, and by all of them otherwise.
#[test]
fn the_entries_answer_as_the_reference_on_many_iterations() {
    compared(Compared::All, large_ticket, LARGE_TICKETS);
}

/// The difference of two of their indices is no word of 16 bits.
#[test]
fn the_entries_answer_as_the_reference_on_indices_far_apart() {
    compared(Compared::All, far_apart_ticket, FAR_APART_TICKETS);
}

fn bytes(digits: &str) -> Vec<u8> {
    let digits = digits.trim_matches('-');
    let pairs = (0..digits.len()).step_by(2).map(|at| &digits[at..at + 2]);
    pairs
        .map(|pair| u8::from_str_radix(pair, 16).expect("hexadecimal digits"))
        .collect()
}

/// The tickets of the outside vectors. Their own answers are compared in the reference's tests.
fn outside_tickets() -> Vec<Vec<u8>> {
    let vectors = |name: &str| {
        let file = Path::new(env!("CARGO_MANIFEST_DIR")).join("../tests").join(name);
        fs::read_to_string(file).expect("the outside vectors")
    };
    let (base, later) = (vectors("base.txt"), [vectors("L1.txt"), vectors("L2.txt")].concat());
    let base = base.lines().filter_map(|line| line.strip_prefix("ticket "));
    let later = later.lines().filter_map(|line| line.split(' ').nth(1));
    base.chain(later).map(bytes).collect()
}

#[test]
fn the_entries_answer_as_the_reference_on_outside_tickets() {
    let tickets = outside_tickets();
    let tally = compared(Compared::All, |_, index| tickets[index as usize].clone(), tickets.len() as u64);
    assert!(tally.circulating >= 200, "too few circulations:\n{tally}");
    assert!(tally.with_pairs >= 14 && tally.table_alone >= 14, "too few out of order:\n{tally}");
}

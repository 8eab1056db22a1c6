//! Calls the six entries on heap buffers of exactly the right size, for a memory checker to watch.
//!
//! Each line of standard input is a ticket: how many words its store has, then its bytes in hexadecimal digits (`-` for none). Each line
//! of output has the answers, and sums of what was written. The test `exact_buffers` feeds it and compares.

use std::io::{self, BufRead, Write};
use std::process::ExitCode;

use hurkeztor::entries::{self, Answer, PairRecord};

/// The longest output of write and of list.
const LONGEST: usize = 21_330;
/// The longest list of pairs that is lent.
const MOST_RECORDS: usize = 3000;

fn ticket(digits: &str) -> Option<Box<[u8]>> {
    if digits == "-" {
        return Some(Box::new([]));
    }
    if !digits.len().is_multiple_of(2) || !digits.is_ascii() {
        return None;
    }
    let pairs = (0..digits.len()).step_by(2).map(|at| &digits[at..at + 2]);
    pairs.map(|pair| u8::from_str_radix(pair, 16).ok()).collect()
}

/// A sum that tells the order of the numbers.
fn sum(numbers: impl Iterator<Item = u32>) -> u32 {
    numbers.fold(0, |sum, number| sum.wrapping_mul(31).wrapping_add(number))
}

fn said(answer: Answer) -> String {
    format!("{} {} {}", answer.number, answer.place, answer.count)
}

/// An output's exact length is learnt in a buffer that is long enough. Then come that length, one less, and none.
fn exactly(ticket: &[u8], entry: fn(&[u8], &mut [u8]) -> Answer) -> String {
    let length = entry(ticket, &mut vec![0; LONGEST]).count as usize;
    let mut told = vec![];
    for length in [length, length.saturating_sub(1), 0] {
        let mut out = vec![0; length].into_boxed_slice();
        let answer = entry(ticket, &mut out);
        told.push(format!("{} {}", said(answer), sum(out.iter().map(|byte| u32::from(*byte)))));
    }
    told.join(", ")
}

fn run(ticket: &[u8], words: usize) -> String {
    let mut told = vec![];
    for words in [words, words.saturating_sub(1), 0] {
        let mut store: Box<[u32]> = (0..words as u32).collect();
        let answer = entries::run(ticket, &mut store);
        told.push(format!("{} {}", said(answer), sum(store.iter().copied())));
    }
    told.join(", ")
}

fn quick(ticket: &[u8]) -> String {
    let pairs = [(1, 1), (1, 2), (2, 1), (2, 3), (0, 1), (1, u64::MAX)];
    let told = pairs.map(|(first, second)| said(entries::quick(ticket, first, second)));
    told.join(", ")
}

/// The fields of a record, in their order.
fn fields(record: &PairRecord) -> impl Iterator<Item = u32> {
    let indices = [record.source, record.sink].concat();
    let rest = [record.source_statement, record.sink_statement, record.kind];
    indices.into_iter().map(|index| index as u32).chain(rest.map(u32::from))
}

/// The count is learnt without a list. Then come that many records, one less, and none.
fn reason(ticket: &[u8]) -> String {
    let counted = entries::reason(ticket, &mut []);
    let pairs = if counted.number == 0 && counted.place > 0 {
        counted.count as usize
    } else {
        1
    };
    let pairs = pairs.min(MOST_RECORDS);
    let mut told = vec![];
    for length in [pairs, pairs.saturating_sub(1), 0] {
        let mut list = vec![PairRecord::default(); length].into_boxed_slice();
        let answer = entries::reason(ticket, &mut list);
        told.push(format!("{} {}", said(answer), sum(list.iter().flat_map(fields))));
    }
    told.join(", ")
}

fn answers(line: &str) -> Option<String> {
    let (words, digits) = line.split_once(' ')?;
    let (words, ticket) = (words.parse().ok()?, ticket(digits)?);
    let judge = said(entries::judge(&ticket));
    let (write, list) = (exactly(&ticket, entries::write), exactly(&ticket, entries::list));
    let (quick, run) = (quick(&ticket), run(&ticket, words));
    let reason = reason(&ticket);
    Some(format!(
        "judge {judge}; write {write}; list {list}; quick {quick}; run {run}; reason {reason}"
    ))
}

fn main() -> ExitCode {
    for line in io::stdin().lock().lines() {
        let told = line.ok().and_then(|line| answers(&line));
        let Some(told) = told else {
            eprintln!("A line is the words of a store, a blank, and a ticket's bytes in hexadecimal digits.");
            return ExitCode::from(2);
        };
        if writeln!(io::stdout(), "{told}").is_err() {
            return ExitCode::from(2);
        }
    }
    ExitCode::SUCCESS
}

//! Tickets given as words, and answers, for the tests by hand.

use reference::{Answer, judge, list, write};

pub fn bytes(words: &str) -> Vec<u8> {
    let words = words.split_whitespace().map(|word| word.parse::<i16>().expect("a word"));
    words.flat_map(i16::to_le_bytes).collect()
}

pub fn accepted(count: u32) -> Answer {
    Answer {
        number: 0,
        place: 0,
        count,
    }
}

pub fn refused(number: u8, place: u32) -> Answer {
    Answer { number, place, count: 0 }
}

pub fn listing(words: &str) -> String {
    let mut text = vec![0; 65_536];
    let answer = list(&bytes(words), &mut text);
    assert_eq!(answer.number, 0, "{words}");
    text.truncate(answer.count as usize);
    String::from_utf8(text).expect("ASCII")
}

pub fn new_nest(words: &str) -> String {
    let mut out = vec![0; 65_536];
    let answer = write(&bytes(words), &mut out);
    assert_eq!(answer.number, 0, "{words}");
    let words = out[..answer.count as usize].chunks(2);
    let words = words.map(|pair| i16::from_le_bytes([pair[0], pair[1]]).to_string());
    words.collect::<Vec<_>>().join(" ")
}

/// The judgement of `nest` with the given steps after it.
pub fn judged(nest: &str, steps: &str) -> Answer {
    judge(&bytes(&format!("{nest} {steps}")))
}

/// Worked case 1 without its steps.
pub const CASE_1: &str = "2 1 1 0 1 1 1 1 1 0 0 1 1 2 0 2 1 4 2 2 3 1 3 0 1 0 1 1 1 2 0 1 0 0 0 1";

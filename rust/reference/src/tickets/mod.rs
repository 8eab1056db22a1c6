//! Tickets of all shapes from a seed: sound ones, ones that each refusal is given for, and damaged ones.

mod bodies;
mod chains;
mod mangled;
mod random;
mod spaces;

pub use random::Random;

use bodies::Body;
use chains::Weights;

use crate::ticket::{Loop, Step, Ticket};
use crate::writing::{bytes_of, words_of};

/// Which kinds of steps tickets have.
#[derive(Clone, Copy, PartialEq)]
enum Kinds {
    /// Exchange, reversal, skew and section.
    Four,
    /// Circulation, too.
    Five,
}

impl Kinds {
    /// These weights of four kinds, and this one of circulations.
    fn weights(self, [exchange, reversal, skew, section]: [i64; 4], circulation: i64) -> Weights {
        let circulation = if self == Kinds::Five { circulation } else { 0 };
        [exchange, reversal, skew, section, circulation]
    }

    fn evenly(self) -> Weights {
        self.weights([30, 20, 25, 25], 50)
    }
}

fn count(random: &mut Random) -> usize {
    random.weighted(&[10, 28, 20, 14, 8, 6, 5, 4, 5])
}

/// Loops of some hundreds of iterations, mostly: all pairs of instances are compared.
fn few(random: &mut Random, space: fn(&mut Random) -> Vec<Loop>) -> Vec<Loop> {
    let mut loops = space(random);
    while bodies::few_points(&loops).len() > 250 && random.percent(90) {
        loops = space(random);
    }
    loops
}

/// A nest of few iterations, mostly with steps that are accepted.
fn small(random: &mut Random, kinds: Kinds) -> Ticket {
    let loops = few(random, spaces::small);
    let nest = bodies::nest(random, loops, Body::Any);
    let count = count(random);
    if random.percent(15) {
        let steps = chains::free(random, nest.loops.len(), &[(count, kinds.evenly())]);
        return Ticket { nest, steps };
    }
    let mut steps = chains::accepted(random, &nest, &[(count, kinds.evenly())]);
    if steps.len() < 8 && random.percent(25) {
        let sections = steps.iter().filter(|step| matches!(step, Step::Section { .. })).count();
        steps.extend(chains::free(random, nest.loops.len() + sections, &[(1, kinds.evenly())]));
    }
    Ticket { nest, steps }
}

/// As long as a ticket gets, with steps that are accepted, mostly.
fn longest(random: &mut Random, kinds: Kinds) -> Ticket {
    let loops = spaces::most_limits(random);
    let nest = bodies::nest(random, loops, Body::Most);
    let steps = chains::accepted(random, &nest, &[(8, kinds.evenly())]);
    Ticket { nest, steps }
}

/// Exchanges of loops with many limits: 11.
fn full(random: &mut Random, kinds: Kinds) -> Ticket {
    let loops = spaces::many_limits(random);
    let nest = bodies::nest(random, loops, Body::Free);
    let count = random.between(1, 5) as usize;
    let steps = chains::free(random, nest.loops.len(), &[(count, kinds.weights([70, 5, 10, 15], 60))]);
    Ticket { nest, steps }
}

/// Steps on great numbers: 12.
fn big(random: &mut Random, kinds: Kinds) -> Ticket {
    let loops = spaces::great_numbers(random);
    let nest = bodies::nest(random, loops, Body::Free);
    let count = random.between(1, 5) as usize;
    let steps = chains::free(random, nest.loops.len(), &[(count, kinds.weights([35, 10, 25, 30], 50))]);
    Ticket { nest, steps }
}

/// Skews far from 0, one after another the same way: 13.
fn far(random: &mut Random, kinds: Kinds) -> Ticket {
    let loops = spaces::far(random);
    let nest = bodies::nest(random, loops, Body::Free);
    let skew = chains::free(random, nest.loops.len(), &[(1, [0, 0, 100, 0, 0])]);
    let mut steps = skew.repeat(random.between(2, 7) as usize);
    if kinds == Kinds::Five && random.percent(40) {
        steps.splice(..0, chains::free(random, nest.loops.len(), &[(1, [0, 0, 0, 0, 100])]));
    }
    if random.percent(30) {
        steps.extend(chains::free(random, nest.loops.len(), &[(1, kinds.evenly())]));
    }
    steps.truncate(8);
    Ticket { nest, steps }
}

/// Signs of indices whose difference is no word.
fn far_apart(random: &mut Random) -> Ticket {
    let loops = few(random, spaces::far_apart);
    let nest = bodies::nest(random, loops, Body::Any);
    let parts = [(count(random), Kinds::Five.evenly())];
    let steps = if random.percent(50) {
        chains::accepted(random, &nest, &parts)
    } else {
        chains::free(random, nest.loops.len(), &parts)
    };
    Ticket { nest, steps }
}

/// Exchanges with an empty loop, or circulations of one: 13.
fn spreading(random: &mut Random, kinds: Kinds) -> Ticket {
    let loops = spaces::spreading(random);
    let nest = bodies::nest(random, loops, Body::Any);
    let mut steps = vec![Step::Exchange { a: 1 }];
    if kinds == Kinds::Five && random.percent(50) {
        let (a, b) = random.pick(&[(1, 2), (2, 1), (2, 0), (0, 2)]);
        steps = vec![Step::Circulation { a, b }];
    }
    if random.percent(30) {
        steps.extend(chains::free(random, nest.loops.len(), &[(1, kinds.evenly())]));
    }
    Ticket { nest, steps }
}

/// Indices or counts of points at the edge or beyond: 7 and 8.
fn beyond(random: &mut Random, kinds: Kinds) -> Ticket {
    let loops = if random.percent(50) {
        spaces::at_the_edge(random)
    } else {
        spaces::crowded(random)
    };
    let nest = bodies::nest(random, loops, Body::Few);
    let count = count(random).min(3);
    let steps = chains::free(random, nest.loops.len(), &[(count, kinds.evenly())]);
    Ticket { nest, steps }
}

fn large(random: &mut Random, body: Body, kinds: Kinds) -> Ticket {
    let loops = spaces::large(random);
    let nest = bodies::nest(random, loops, body);
    let count = count(random).min(3);
    // Skews and sections are never out of order: no search for those that are accepted.
    let steps = chains::free(random, nest.loops.len(), &[(count, kinds.weights([10, 5, 40, 45], 30))]);
    Ticket { nest, steps }
}

/// Up to six loops and eight steps, most of them circulations.
fn circulating(random: &mut Random) -> Ticket {
    let space = [spaces::deep, spaces::deep, spaces::many_limits, spaces::great_numbers][random.below(4)];
    let loops = few(random, space);
    let body = if random.percent(50) { Body::Free } else { Body::Any };
    let nest = bodies::nest(random, loops, body);
    let sections = random.below(3);
    let circulations = random.pick(&[1, 2, 3, 4, 5, 6, 8, 8]).min(8 - sections);
    let weights = random.pick(&[[2, 8, 3, 2, 85], [0, 0, 0, 0, 100]]);
    let parts = [(sections, [0, 0, 0, 100, 0]), (circulations, weights)];
    let steps = if random.percent(60) {
        chains::accepted(random, &nest, &parts)
    } else {
        chains::free(random, nest.loops.len(), &parts)
    };
    Ticket { nest, steps }
}

/// A step that is refused with 10 behind some that are not: because pairs trade places, or by the table alone. Perhaps others follow it.
fn refused(random: &mut Random, by_table: bool) -> Ticket {
    // Skews and sections are what the table forgets distances by; neither is ever out of order.
    let (most, weights) = if by_table {
        (4, [10, 10, 45, 35, 10])
    } else {
        (5, [25, 20, 20, 15, 20])
    };
    for _ in 0..60 {
        let space = random.pick(&[spaces::small as fn(&mut Random) -> Vec<Loop>, spaces::small, spaces::deep]);
        let loops = few(random, space);
        let body = if by_table && random.percent(70) { Body::Few } else { Body::Any };
        let nest = bodies::nest(random, loops, body);
        let before = [(random.below(most + 1).max(usize::from(by_table)), weights)];
        let Some(mut steps) = chains::out_of_order(random, &nest, &before, [40, 30, 0, 0, 30], by_table) else {
            continue;
        };
        if steps.len() < 8 && random.percent(30) {
            let sections = steps.iter().filter(|step| matches!(step, Step::Section { .. })).count();
            steps.extend(chains::free(random, nest.loops.len() + sections, &[(1, Kinds::Five.evenly())]));
        }
        return Ticket { nest, steps };
    }
    small(random, Kinds::Five)
}

fn made(random: &mut Random, kinds: Kinds) -> Vec<u8> {
    let circulations = if kinds == Kinds::Five { 400 } else { 0 };
    let ticket = match random.weighted(&[640, 80, 80, 50, 30, 80, 20, 2, 18, circulations]) {
        0 => small(random, kinds),
        1 => full(random, kinds),
        2 => big(random, kinds),
        3 => far(random, kinds),
        4 => spreading(random, kinds),
        5 => beyond(random, kinds),
        6 => longest(random, kinds),
        7 => large(random, Body::Few, kinds),
        8 => return mangled::noise(random),
        _ => circulating(random),
    };
    let bytes = bytes_of(&words_of(&ticket));
    if kinds == Kinds::Five && random.percent(8) {
        return mangled::misnamed(random, bytes, &ticket.steps);
    }
    if random.percent(25) {
        return mangled::mangled(random, bytes, ticket.steps.len());
    }
    bytes
}

/// The ticket of a seed and an index: the same one on every machine.
pub fn ticket(seed: u64, index: u64) -> Vec<u8> {
    made(&mut Random::of(seed, index), Kinds::Five)
}

/// The same of the first four kinds alone, though a damaged one may have kind 5.
pub fn ticket_of_four_kinds(seed: u64, index: u64) -> Vec<u8> {
    made(&mut Random::of(seed, index), Kinds::Four)
}

/// Four of ten are refused with 10 since pairs trade places, one of eight by the table alone, and the others are as above.
pub fn out_of_order_ticket(seed: u64, index: u64) -> Vec<u8> {
    let random = &mut Random::of(seed, index);
    let ticket = match random.weighted(&[16, 5, 19]) {
        0 => refused(random, false),
        1 => refused(random, true),
        _ => return made(random, Kinds::Five),
    };
    bytes_of(&words_of(&ticket))
}

/// One with indices that are farther apart than a word goes.
pub fn far_apart_ticket(seed: u64, index: u64) -> Vec<u8> {
    let ticket = far_apart(&mut Random::of(seed, index));
    bytes_of(&words_of(&ticket))
}

/// One of some hundreds to 4096 iterations: too many for all pairs of instances to be compared often.
pub fn large_ticket(seed: u64, index: u64) -> Vec<u8> {
    let ticket = large(&mut Random::of(seed, index), Body::Any, Kinds::Five);
    bytes_of(&words_of(&ticket))
}

/// A ticket's words parted by blanks; a half word at the end is given as one byte.
pub fn as_words(ticket: &[u8]) -> String {
    let words = ticket.chunks(2).map(|pair| match pair {
        [low, high] => i16::from_le_bytes([*low, *high]).to_string(),
        half => format!("and the byte {}", half[0]),
    });
    words.collect::<Vec<_>>().join(" ")
}

//! The generator reaches every answer, and what the reference accepts keeps every array: demand 3 of document 01.

use reference::plain_run::{Turn, order, plain_run};
use reference::reading::kinds;
use reference::ticket::{Nest, Ticket};
use reference::tickets::{as_words, far_apart_ticket, ticket};
use reference::{Answers, judge};

const SEED: u64 = 1;
const TICKETS: u64 = 3000;

#[test]
fn every_number_of_judge_occurs() {
    let mut seen = [0; 17];
    for index in 0..TICKETS {
        seen[judge(&ticket(SEED, index)).number as usize] += 1;
    }
    println!("{seen:?}");
    for (number, times) in seen[..14].iter().enumerate() {
        assert!(*times >= 15, "number {number} occurs {times} times: {seen:?}");
    }
}

/// Most have conflicts, and two iterations whose indices differ by more than a word holds.
#[test]
fn indices_lie_far_apart() {
    let far_apart = |index: &u64| {
        let Ok(admitted) = Answers::to(&far_apart_ticket(SEED, *index)).admitted else {
            return false;
        };
        let spread = |place: usize| {
            let values = admitted.points.iter().map(|point| point[place]);
            values
                .clone()
                .max()
                .zip(values.min())
                .is_some_and(|(most, least)| most - least > 32_767)
        };
        !admitted.lines.is_empty() && (0..admitted.ticket.nest.loops.len()).any(spread)
    };
    let tickets = (0..300).filter(far_apart).count();
    assert!(tickets > 200, "{tickets} of 300");
}

/// A rule whose value tells statement, reads and original iteration apart.
fn mixed(statement: usize, reads: &[u64], original: &[i64]) -> u64 {
    let mix = |sum: u64, next: u64| (sum ^ next).wrapping_mul(0x9e37_79b9_7f4a_7c15).rotate_left(23);
    let sum = reads.iter().fold(statement as u64, |sum, read| mix(sum, *read));
    original.iter().fold(sum, |sum, index| mix(sum, *index as u64))
}

fn left_by(nest: &Nest, order: &[Turn]) -> Vec<u64> {
    let mut values: Vec<u64> = (0..nest.elements() as u64).collect();
    plain_run(nest, order, mixed, &mut values);
    values
}

#[test]
fn accepted_orders_end_alike() {
    let mut accepted = 0;
    for index in 0..TICKETS {
        let bytes = ticket(SEED, index);
        let Answers {
            admitted: Ok(admitted),
            judged: Ok(judged),
        } = Answers::to(&bytes)
        else {
            continue;
        };
        let Ticket { nest, steps } = &admitted.ticket;
        let (old, new) = (order(&[], &admitted.points), order(steps, &judged.points));
        let mut originals: Vec<_> = new.iter().map(|turn| turn.original.clone()).collect();
        originals.sort();
        assert_eq!(originals, admitted.points, "{}", as_words(&bytes));
        assert_eq!(left_by(&judged.nest, &new), left_by(nest, &old), "{}", as_words(&bytes));
        accepted += usize::from(!steps.is_empty() && !admitted.lines.is_empty());
    }
    assert!(accepted > 500, "{accepted} tickets with conflicts and steps were accepted");
}

#[test]
fn circulations_get_every_answer_of_theirs() {
    let (mut tickets, mut of_eight, mut seen) = (0, 0, [0; 17]);
    for index in 0..TICKETS {
        let bytes = ticket(SEED, index);
        let circulations = kinds(&bytes).iter().filter(|kind| **kind == 5).count();
        if circulations > 0 {
            tickets += 1;
            of_eight += usize::from(circulations == 8);
            seen[judge(&bytes).number as usize] += 1;
        }
    }
    println!("{tickets} tickets, {of_eight} of eight circulations, {seen:?}");
    assert!(
        tickets > TICKETS * 2 / 5 && of_eight >= 10,
        "{tickets}, {of_eight} of eight circulations"
    );
    for number in [0, 1, 4, 6, 10, 11, 12, 13] {
        assert!(seen[number] >= 5, "number {number} occurs {} times: {seen:?}", seen[number]);
    }
}

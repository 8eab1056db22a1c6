//! Circulations, request L1 of document 02: the tickets of its design, and what is claimed of every circulation and its exchanges.

mod words;

use reference::plain_run::order;
use reference::ticket::{Step, Ticket};
use reference::tickets::{as_words, ticket};
use reference::{Answers, judge, reading};
use words::{CASE_1, accepted, bytes, judged, listing, new_nest, refused};

/// A box of 2 × 3 × 4 iterations without a conflict.
const BOX: &str = "3 1 1 0 1 1 1 1 1 0 0 1 1 2 0 1 1 0 0 0 1 1 3 0 0 1 3 2 3 4 1 3 0 1 0 1 0 0 0 0 1 0 0 0 0 1 1 1 0 1 0 0 0 0 1 0 0 0 0 1";
/// A(i,j,k) = A(i−1,j,k+1): only <=>.
const MOVED_ROWS: &str =
    "3 1 1 1 1 1 2 1 1 0 0 1 1 1 0 1 1 0 0 0 1 1 1 0 0 1 3 3 2 3 1 3 0 1 0 1 0 0 0 0 1 0 0 0 0 1 1 1 -1 1 0 0 0 0 1 0 1 0 0 1";
/// i 0..2, j i..2, k j..2.
const TRIANGLE: &str =
    "3 1 1 0 1 1 2 1 1 0 1 1 1 2 0 1 1 0 0 1 1 1 2 0 0 1 3 3 3 3 1 1 1 1 0 1 0 0 0 0 1 0 0 0 0 1 1 1 0 1 0 0 0 0 1 0 0 0 0 1";

fn nest_after(nest: &str, steps: &str) -> String {
    new_nest(&format!("{nest} {steps}"))
}

#[test]
fn a_loop_goes_inwards_or_outwards() {
    assert_eq!(judged(BOX, "1 5 1 3 0"), accepted(24));
    assert_eq!(judged(BOX, "1 5 3 1 0"), accepted(24));
    let inwards = nest_after(BOX, "1 5 1 3 0");
    assert!(
        inwards.starts_with("3 1 1 0 1 1 2 1 1 0 0 1 1 3 0 1 1 0 0 0 1 1 1 0 0 "),
        "{inwards}"
    );
    let outwards = nest_after(BOX, "1 5 3 1 0");
    assert!(
        outwards.starts_with("3 1 1 0 1 1 3 1 1 0 0 1 1 1 0 1 1 0 0 0 1 1 2 0 0 "),
        "{outwards}"
    );
    assert_eq!(inwards, nest_after(BOX, "2 1 1 2 0 1 2 3 0"));
    assert_eq!(outwards, nest_after(BOX, "2 1 2 3 0 1 1 2 0"));
}

#[test]
fn to_the_next_place_is_an_exchange() {
    let exchanged = nest_after(BOX, "1 1 1 2 0");
    assert_eq!(nest_after(BOX, "1 5 1 2 0"), exchanged);
    assert_eq!(nest_after(BOX, "1 5 2 1 0"), exchanged);
}

#[test]
fn a_direction_is_judged_at_the_last_place() {
    assert_eq!(listing(&format!("{MOVED_ROWS} 0")), "3 8 1\nF 1 1 <=>\n");
    assert_eq!(judged(MOVED_ROWS, "1 5 1 3 0"), refused(10, 1));
    assert_eq!(judged(MOVED_ROWS, "1 5 3 1 0"), refused(10, 1));
    for steps in ["1 5 1 2 0", "1 5 2 3 0", "2 2 3 0 0 5 1 3 0"] {
        assert_eq!(judged(MOVED_ROWS, steps), accepted(8), "{steps}");
    }
    assert_eq!(judged(CASE_1, "1 5 2 1 0"), refused(10, 1));
}

#[test]
fn the_exchanges_come_in_the_chain_s_order() {
    assert_eq!(judged(TRIANGLE, "1 5 3 1 0"), accepted(10));
    let outwards = nest_after(TRIANGLE, "1 5 3 1 0");
    let loops = "3 1 1 0 1 1 2 1 1 0 0 2 1 2 0 1 0 1 1 1 0 0 1 2 1 2 0 0 1 0 1 0 ";
    assert!(outwards.starts_with(loops), "{outwards}");
    assert_eq!(outwards, nest_after(TRIANGLE, "2 1 2 3 0 1 1 2 0"));
    assert_ne!(outwards, nest_after(TRIANGLE, "2 1 1 2 0 1 1 2 0"));
}

#[test]
fn words_of_a_circulation_offend_one_by_one() {
    for steps in ["1 5 1 1 0", "1 5 1 4 0", "1 5 1 0 0", "1 5 1 -1 0", "1 5 4 1 0", "1 5 0 1 0"] {
        assert_eq!(judged(BOX, steps), refused(6, 1), "{steps}");
    }
    assert_eq!(judged(BOX, "1 5 -32768 1 0"), refused(4, 63));
    assert_eq!(judged(BOX, "1 5 1 -32768 0"), refused(4, 64));
    assert_eq!(judged(BOX, "1 5 1 3 1"), refused(4, 65));
    assert_eq!(judged(BOX, "1 5 1 3 -32768"), refused(4, 65));
    assert_eq!(judged(BOX, "1 5 1 3"), refused(1, 65));
    assert_eq!(judged(BOX, "1 5 1"), refused(1, 64));
    assert_eq!(judged(BOX, "1 6 1 3 0"), refused(4, 62));
    // b is a, and c is missing or bad: decided at b.
    assert_eq!(judge(&bytes("1 1 1 0 1 1 0 1 1 1 1 1 0 1 0 0 0 1 5 1 1")), refused(6, 1));
    assert_eq!(judged(BOX, "1 5 2 2 7"), refused(6, 1));
    assert_eq!(judged(BOX, "2 5 1 3 0 5 1 4 0"), refused(6, 2));
}

#[test]
fn six_loops_and_sixteen_exchanges() {
    let nest = "4 1 1 0 1 1 1 1 1 0 0 1 1 1 0 1 1 0 0 0 1 1 1 0 0 1 1 0 0 0 0 1 1 1 0 0 0 1 1 16 1 1 0 1 0 8 4 2 1 0";
    assert_eq!(judged(nest, "3 4 1 2 0 4 3 2 0 5 1 6 0"), accepted(16));
    let eight = "8 4 1 2 0 4 3 2 0 5 1 6 0 5 1 5 0 5 1 4 0 5 1 3 0 5 1 2 0 2 6 0 0";
    assert_eq!(judged(nest, eight), accepted(16));
}

#[test]
fn ten_comes_before_twelve_of_an_exchange_on_the_way() {
    let nest = "3 1 1 -1 1 1 0 2 1 0 0 1 -32767 1 1 1 0 0 1 1 0 0 0 1 1 1 0 0 1 1 1 1 1 0 1 0 0 0 0 0";
    assert_eq!(judged(nest, "1 5 1 3 0"), refused(10, 1));
    assert_eq!(judged(nest, "2 1 1 2 0 1 2 3 0"), refused(12, 1));
}

#[test]
fn eleven_is_judged_on_the_way() {
    let nest = "4 1 1 0 1 1 0 3 1 0 1 1 0 2 1 0 3 1 1 0 0 2 1 0 0 0 1 0 3 0 1 1 0 0 0 4 1 0 -12 1 1 1 0 -6 1 1 1 0 0 1 1 1 0 6 1 1 1 \
                1 0 0 0 0 1 1 1 1 1 0 1 0 0 0 0 0 0";
    assert_eq!(judged(nest, "1 5 4 1 0"), refused(11, 1));
    assert_eq!(judged(nest, "3 1 3 4 0 1 2 3 0 1 1 2 0"), refused(11, 2));
}

/// The ticket with every circulation written out as its exchanges.
fn spelled(ticket: &Ticket) -> Ticket {
    Ticket {
        nest: ticket.nest.clone(),
        steps: ticket.steps.iter().flat_map(Step::stages).collect(),
    }
}

/// Accepted exactly when the exchanges are, with the same nest, and each point undone to the same iteration.
#[test]
fn circulations_answer_as_their_exchanges() {
    let (mut both_accept, mut both_refuse, mut longest) = (0, 0, 0);
    for index in 0..3000 {
        let bytes = ticket(2, index);
        let Ok(read) = reading::read(&bytes) else { continue };
        if !read.steps.iter().any(|step| matches!(step, Step::Circulation { .. })) {
            continue;
        }
        let spelled = spelled(&read);
        let (circulated, exchanged) = (Answers::of(Ok(read.clone())).judged, Answers::of(Ok(spelled.clone())).judged);
        let words = as_words(&bytes);
        match (circulated, exchanged) {
            (Ok(circulated), Ok(exchanged)) => {
                assert_eq!(circulated.nest, exchanged.nest, "{words}");
                assert_eq!(circulated.points, exchanged.points, "{words}");
                let originals = |steps: &[Step]| {
                    order(steps, &circulated.points)
                        .into_iter()
                        .map(|turn| turn.original)
                        .collect::<Vec<_>>()
                };
                assert_eq!(originals(&read.steps), originals(&spelled.steps), "{words}");
                both_accept += 1;
                longest = longest.max(spelled.steps.len());
            }
            (Err(_), Err(_)) => both_refuse += 1,
            (circulated, exchanged) => panic!("{:?} and {:?}: {words}", circulated.err(), exchanged.err()),
        }
    }
    println!("{both_accept} accepted, the longest with {longest} exchanges and other steps; {both_refuse} refused");
    assert!(both_accept > 400 && both_refuse > 200 && longest > 8);
}

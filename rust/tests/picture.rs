//! Every ticket whose iterations are known is drawn: the pairs that are found have the vectors of the proved listing, and those that trade places are
//! the reason tool's.

use hurkeztor::draw::{NoPicture, picture};
use hurkeztor::text::Names;
use hurkeztor::{Nest, Reason, Ticket, judge, list, why};
use std::collections::BTreeSet;

fn ticket(text: &str) -> (Ticket, Names) {
    let nest: Nest = text.parse().expect(text);
    (Ticket::from_nest(&nest).expect(text), Names::of(&nest))
}

fn svg(text: &str) -> String {
    let (ticket, names) = ticket(text);
    picture(&ticket, &names).expect(text).svg
}

fn outside_tickets() -> Vec<Ticket> {
    let read = |path: &str| std::fs::read_to_string(path).expect(path);
    let base = read(concat!(env!("CARGO_MANIFEST_DIR"), "/../tests/base.txt"));
    let circulations = read(concat!(env!("CARGO_MANIFEST_DIR"), "/../tests/L1.txt"));
    let reasons = read(concat!(env!("CARGO_MANIFEST_DIR"), "/../tests/L2.txt"));
    let base = base.lines().filter_map(|line| line.strip_prefix("ticket "));
    let later = circulations.lines().chain(reasons.lines());
    let lines = base.chain(later.filter_map(|line| line.split(' ').nth(1)));
    let byte = |two: &[u8]| u8::from_str_radix(std::str::from_utf8(two).expect("ASCII"), 16).expect("hexadecimal digits");
    lines
        .map(|hex| Ticket::from_bytes(hex.trim_matches('-').as_bytes().chunks_exact(2).map(byte).collect::<Vec<u8>>()))
        .collect()
}

/// Draws the ticket, or is told the listing's refusal. Answers whether there is a picture.
fn drawn(ticket: &Ticket) -> bool {
    let names = ticket.nest().map(|nest| Names::of(&nest)).unwrap_or_default();
    match (picture(ticket, &names), list(ticket)) {
        (Ok(picture), Ok(_)) => {
            assert_eq!(picture.answer, judge(ticket));
            assert!(picture.svg.starts_with("<svg") && picture.svg.ends_with("</svg>\n") && !picture.svg.contains("NaN"));
            trading_pairs_are_counted(ticket, &picture.svg);
            true
        }
        (Err(NoPicture::Refused(refusal)), Err(listed)) => {
            assert_eq!(refusal, listed);
            false
        }
        (drawing, _) => panic!("{:?}: {:?}", ticket.words(), drawing.err()),
    }
}

/// The caption counts the pairs of iterations that the reason tool gives. A pair of iterations may have several of its records.
fn trading_pairs_are_counted(ticket: &Ticket, svg: &str) {
    match why(ticket, 4096) {
        Reason::Pairs { count, pairs, .. } => {
            if pairs.len() < count as usize {
                return;
            }
            let iterations: BTreeSet<_> = pairs.into_iter().map(|pair| (pair.source, pair.sink)).collect();
            let counted = format!("<desc>{} of ", iterations.len());
            assert!(svg.contains(&counted), "{counted}: {:?}", ticket.words());
        }
        Reason::TableAlone { .. } => assert!(svg.contains("by the table of signs alone")),
        Reason::Judged(_) => assert_eq!(svg.matches("url(#traded)").count(), 1, "the legend's"),
    }
}

#[test]
fn outside_tickets_are_drawn() {
    let count = outside_tickets().iter().filter(|ticket| drawn(ticket)).count();
    assert!(count > 100, "{count} pictures");
}

#[test]
fn changed_tickets_are_drawn() {
    let mut state = 1u64;
    let mut number = |below: usize| {
        state = state
            .wrapping_mul(6_364_136_223_846_793_005)
            .wrapping_add(1_442_695_040_888_963_407);
        (state >> 33) as usize % below
    };
    let mut count = 0;
    for ticket in outside_tickets().iter().cycle().take(600) {
        let mut words = ticket.words();
        if words.is_empty() {
            continue;
        }
        let at = number(words.len());
        words[at] = number(7) as i16 - 2;
        count += usize::from(drawn(&Ticket::from_words(&words)));
    }
    assert!(count > 100, "{count} pictures");
}

#[test]
fn trading_pairs_are_red() {
    let red = "marker-end=\"url(#traded)\"";
    let case_1 = svg("array A(4)\narray B(2, 3)\nfor i = 0 to 1\n for j = 0 to 2\n  A(i+j) = B(i, j)\nexchange 1 2");
    assert_eq!(case_1.matches(red).count(), 1 + 4, "the legend's, and two pairs in each panel");
    assert!(case_1.contains("2 of 2 conflicting pairs of iterations trade places."));
    let accepted = svg("array A(3, 4)\nfor i = 0 to 2\n for j = 1 to 3\n  A(i, j) = A(i, j-1)\nexchange 1 2");
    assert_eq!(accepted.matches(red).count(), 1);
    assert!(accepted.contains("All 6 conflicting pairs of iterations keep their order."));
}

#[test]
fn captions_say_what_is_drawn() {
    let skewed = svg("array A(3, 4)\nfor i = 1 to 2\n for j = 0 to 2\n  A(i, j) = A(i-1, j+1)\nskew 1 2 by 1\nexchange 1 2");
    assert!(skewed.contains("refused 10 at step 2, out of order"));
    assert!(skewed.contains("by the table"), "no pair trades places");
    let empty = svg("array A(1)\nfor i = 0 to -1\n  A(i) = 1");
    assert!(empty.contains("no iterations") && empty.contains("accepted: 0 iterations"));
    let deep = svg("array A(2, 2)\nfor i = 0 to 1\n for j = 0 to 1\n  for k = 0 to 1\n   A(i, j) = A(i, j) + 1");
    assert!(deep.contains("Only the two outermost loops are drawn"));
    let wide = svg("array A(4095)\nfor i = 1 to 4094\n  A(i) = A(i-1)\nreverse 1");
    assert!(wide.contains("Drawn before and after: 8 of 4094 points, 7 of 4093 pairs."));
}

#[test]
fn pairs_beyond_the_list_are_red_by_their_places() {
    let folded = |last: u32| svg(&format!("array A(1)\nfor i = 0 to {last}\n  A(0) = A(0) + 1\nreverse 1"));
    let beyond = "Red by the first 65536 of 134550 records of the reason tool; beyond them, by the places of their iterations.";
    let (few, many) = (folded(147), folded(299));
    assert!(few.contains("10878 of 10878 conflicting pairs") && !few.contains("Red by"));
    assert!(many.contains("44850 of 44850 conflicting pairs") && many.contains(beyond));
    let kept = "marker-end=\"url(#kept)\"";
    assert_eq!((few.matches(kept).count(), many.matches(kept).count()), (1, 1), "the legend's");
}

#[test]
fn a_moved_loop_is_drawn_at_its_place() {
    let nest = "array A(2, 3, 4)\nfor i = 0 to 1\n for j = 0 to 2\n  for k = 0 to 3\n   A(i, j, k) = 1\n";
    for (moved, exchanged) in [
        ("move 1 to 3", "exchange 1 2\nexchange 2 3"),
        ("move 3 to 1", "exchange 2 3\nexchange 1 2"),
    ] {
        // The panel after the steps, without its title.
        let panel = |steps: &str| {
            let picture = svg(&format!("{nest}{steps}"));
            let (_, after) = picture.split_once("After step").expect("a panel after the steps");
            let (_, after) = after.split_once('\n').expect("lines");
            after
                .split("<text")
                .take_while(|shape| !shape.contains("accepted"))
                .collect::<String>()
        };
        assert_eq!(panel(moved), panel(exchanged), "{moved}");
    }
    let red = "marker-end=\"url(#traded)\"";
    let inwards = "array A(3, 2, 3)\nfor i = 1 to 2\n for j = 0 to 1\n  for k = 0 to 1\n   A(i, j, k) = A(i-1, j, k+1) + 1\nmove 1 to 3";
    let refused = svg(inwards);
    assert!(refused.contains("refused 10 at step 1, out of order") && refused.contains(red));
    assert!(refused.contains("2 of 2 conflicting pairs of iterations trade places."));
}

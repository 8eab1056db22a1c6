//! The reason entry and `why` on the tickets of request L2's design, and on what those leave out.

#[path = "../reference/tests/reasons/mod.rs"]
mod reasons;
#[path = "compare/records.rs"]
mod records;

use hurkeztor::entries::{self, PairRecord};
use hurkeztor::{Kind, Reason, Ticket, judge, why};
use records::{to_library, to_reference};
use reference::Answer;
use std::mem::{align_of, size_of};

#[test]
fn a_record_is_as_c_has_it() {
    assert_eq!((size_of::<PairRecord>(), align_of::<PairRecord>()), (22, 2));
}

#[test]
fn tickets_of_the_design() {
    reasons::hold(|ticket, list| {
        let mut records: Vec<PairRecord> = list.iter().map(to_library).collect();
        let entries::Answer { number, place, count } = entries::reason(ticket, &mut records);
        for (record, left) in list.iter_mut().zip(&records) {
            *record = to_reference(left);
        }
        Answer { number, place, count }
    });
}

fn ticket(text: &str) -> Ticket {
    Ticket::parse_text(text).expect("a ticket")
}

fn printed(reason: &Reason) -> Vec<String> {
    match reason {
        Reason::Pairs { pairs, .. } => pairs.iter().map(ToString::to_string).collect(),
        other => panic!("no pairs: {other:?}"),
    }
}

const TWO_STATEMENTS: &str = "array A(5)\narray B(4)\nfor i = 1 to 3\n  A(i) = B(i)\n  B(i) = A(i-1) + A(i+1)\nreverse 1\n";

#[test]
fn as_many_pairs_as_are_wanted() {
    let ticket = ticket(TWO_STATEMENTS);
    let all = ["F 1 2 (1) (2)", "A 2 1 (1) (2)", "F 1 2 (2) (3)", "A 2 1 (2) (3)"];
    for most in [0, 1, 3, 4, 5, usize::MAX] {
        let reason = why(&ticket, most);
        assert!(matches!(reason, Reason::Pairs { step: 1, count: 4, .. }), "{reason:?}");
        assert_eq!(printed(&reason), all[..most.min(4)], "at most {most}");
        assert_eq!(reason.judgement(), judge(&ticket));
    }
}

#[test]
fn a_pair_knows_its_element_and_its_vectors() {
    let ticket = ticket(TWO_STATEMENTS);
    let nest = ticket.nest().expect("a nest");
    let Reason::Pairs { pairs, .. } = why(&ticket, 2) else {
        panic!("pairs trade places");
    };
    let told: Vec<_> = pairs.iter().map(|pair| (pair.kind, pair.element(&nest))).collect();
    assert_eq!(told, [(Kind::Flow, (1, vec![1])), (Kind::Anti, (1, vec![2]))]);
    let signs = |steps| pairs[0].vector(steps).iter().map(ToString::to_string).collect::<String>();
    assert_eq!((signs(&[]), signs(&nest.steps)), ("<".into(), ">".into()));
}

#[test]
fn very_many_pairs() {
    let ticket = ticket("array A(1)\nfor i = 1 to 100\n  A(0) = 1\nreverse 1");
    let reason = why(&ticket, usize::MAX);
    assert!(matches!(reason, Reason::Pairs { step: 1, count: 4950, .. }));
    let lines = printed(&reason);
    assert_eq!((lines.len(), lines[4949].as_str()), (4950, "O 1 1 (99) (100)"));
    assert_eq!(printed(&why(&ticket, 4500)), lines[..4500]);
}

/// Iterations that read one element conflict only with those that write it.
#[test]
fn elements_that_many_read() {
    let pairs = |text: &str| printed(&why(&ticket(text), 20));
    let coefficient = "array A(4)\narray B(1)\nfor i = 1 to 3\n  A(i) = A(i-1) + B(0)\nreverse 1";
    assert_eq!(pairs(coefficient), ["F 1 1 (1) (2)", "F 1 1 (2) (3)"]);
    let written_first = "array A(4)\nfor i = 0 to 3\n  A(i) = A(0)\nreverse 1";
    assert_eq!(pairs(written_first), ["F 1 1 (0) (1)", "F 1 1 (0) (2)", "F 1 1 (0) (3)"]);
    let written_between = "array A(4)\nfor i = 0 to 3\n  A(i) = A(2)\nreverse 1";
    assert_eq!(pairs(written_between), ["A 1 1 (0) (2)", "A 1 1 (1) (2)", "F 1 1 (2) (3)"]);
}

#[test]
#[ignore = "lends 184 MB twice"]
fn every_pair_of_4096_iterations_on_one_element() {
    let ticket = ticket("array A(1)\nfor i = 0 to 4095\n  A(0) = 1\nreverse 1");
    let (count, junk) = (
        8_386_560,
        PairRecord {
            kind: 7,
            ..PairRecord::default()
        },
    );
    let all = (0..4096).flat_map(|p| (p + 1..4096).map(move |q| (p, q)));
    let expected = all.map(|(p, q)| PairRecord {
        source: [p, 0, 0, 0],
        sink: [q, 0, 0, 0],
        source_statement: 1,
        sink_statement: 1,
        kind: u16::from(b'O'),
    });
    for length in [count, count + 3] {
        let mut list = vec![junk; length];
        let answer = entries::reason(ticket.as_bytes(), &mut list);
        assert_eq!((answer.number, answer.place, answer.count), (0, 1, 8_386_560));
        assert!(list.iter().copied().eq(expected.clone().chain(vec![junk; length - count])));
    }
}

#[test]
fn no_pair_trades_places() {
    let skewed = "array A(3, 4)\nfor i = 1 to 2\n  for j = 0 to 2\n    A(i, j) = A(i-1, j+1)\nskew 1 2 by 1\nexchange 1 2";
    let table_alone = why(&ticket(skewed), 20);
    assert_eq!(table_alone, Reason::TableAlone { step: 2 });
    assert_eq!(table_alone.judgement(), judge(&ticket(skewed)));
    for text in [
        "array A(4)\nfor i = 1 to 3\n  A(i) = A(i-1)\nsection 1 by 2",
        "array A(4)\nfor i = 1 to 4\n  A(i) = A(i-1)\nreverse 1",
        "array A(1)\nfor i = 0 to -1\n  A(0) = 1\nreverse 1\nreverse 2",
    ] {
        assert_eq!(why(&ticket(text), 20), Reason::Judged(judge(&ticket(text))), "{text}");
    }
    let none = Ticket::from_bytes([]);
    assert_eq!(why(&none, 20), Reason::Judged(judge(&none)));
}

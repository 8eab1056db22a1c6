//! The reason tool, request L2 of document 02: the tickets of its design, and what is claimed of every pair that it gives.

mod reasons;

use reference::plain_run::original;
use reference::reason::{Record, forward, traded};
use reference::tickets::{as_words, out_of_order_ticket};
use reference::{Answers, reason};

#[test]
fn tickets_of_the_design() {
    reasons::hold(reason);
}

fn records(answers: &Answers, steps: usize) -> Vec<Record> {
    let admitted = answers.admitted.as_ref().expect("a ticket that gets a 10 is admitted");
    let mut records = vec![];
    traded(&admitted.ticket.nest, &admitted.points, &admitted.ticket.steps[..steps], |record| {
        records.push(record)
    });
    records
}

/// No pair had traded places at the step before, each is there once, and they come in their order. Steps taken and undone lead back.
#[test]
fn pairs_of_refused_tickets() {
    let (mut with_pairs, mut later) = (0, 0);
    for index in 0..3000 {
        let bytes = out_of_order_ticket(3, index);
        let (answers, words) = (Answers::to(&bytes), as_words(&bytes));
        let Err(refusal) = answers.judged.as_ref().map(|_| ()) else {
            continue;
        };
        if refusal.number != 10 {
            continue;
        }
        let step = refusal.place as usize;
        let admitted = answers.admitted.as_ref().expect("a ticket that gets a 10 is admitted");
        let steps = &admitted.ticket.steps[..step];
        for point in &admitted.points {
            assert_eq!(original(steps, &forward(steps, point)), *point, "{words}");
        }
        let now = records(&answers, step);
        let key = |r: &Record| {
            let kind = "FAO".find(char::from(r.kind as u8)).expect("one of three kinds");
            (r.source, r.sink, r.source_statement, r.sink_statement, kind)
        };
        assert!(now.windows(2).all(|two| key(&two[0]) < key(&two[1])), "{words}");
        assert_eq!(records(&answers, step - 1), [], "{words}");
        with_pairs += usize::from(!now.is_empty());
        later += usize::from(!now.is_empty() && step > 1);
    }
    assert!(
        with_pairs > 900 && later > 300,
        "{with_pairs} with pairs, {later} of them at later steps"
    );
}

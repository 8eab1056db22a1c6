//! The entries from threads that have too little stack for them: each call finds room.

use hurkeztor::entries::{self, Answer, PairRecord};
use hurkeztor::{Nest, Ticket};
use std::thread;

const TICKET: &str = "array A(4)\nfor i = 1 to 3\n  A(i) = A(i-1) + 1\nsection 1 by 2\n";
const OUT_OF_ORDER: &str = "array A(4)\nfor i = 1 to 3\n  A(i) = A(i-1) + 1\nreverse 1\n";

/// The tickets that all six are asked for: an accepted one, and one whose pairs trade places.
#[derive(Clone)]
struct Tickets {
    accepted: Ticket,
    out_of_order: Ticket,
}

fn all_six(tickets: &Tickets) -> [Answer; 7] {
    let (ticket, refused) = (tickets.accepted.as_bytes(), tickets.out_of_order.as_bytes());
    let mut list = [PairRecord::default(); 3];
    let (mut nest, mut listing, mut store) = ([0; 2696], [0; 64], [5, 0, 0, 0]);
    let answers = [
        entries::judge(ticket),
        entries::write(ticket, &mut nest),
        entries::list(ticket, &mut listing),
        entries::quick(ticket, 1, 2),
        entries::run(ticket, &mut store),
        entries::reason(ticket, &mut list),
        entries::reason(refused, &mut list),
    ];
    assert_eq!(store, [5, 6, 7, 8]);
    assert_eq!(list.map(|pair| pair.sink[0]), [2, 3, 0]);
    answers
}

fn ticket(text: &str) -> Ticket {
    Ticket::from_nest(&text.parse::<Nest>().expect("a nest")).expect("a ticket")
}

fn tickets() -> Tickets {
    Tickets {
        accepted: ticket(TICKET),
        out_of_order: ticket(OUT_OF_ORDER),
    }
}

#[test]
fn small_stacks() {
    let tickets = tickets();
    let expected = all_six(&tickets);
    for kilobytes in [64, 256, 1024, 1300, 2048, 8192] {
        let tickets = tickets.clone();
        let thread = thread::Builder::new().stack_size(kilobytes << 10).spawn(move || all_six(&tickets));
        assert_eq!(thread.expect("a thread").join().expect("answers"), expected, "{kilobytes} KiB");
    }
}

/// Goes down until little stack is left, asking all the way.
#[inline(never)]
fn descend(tickets: &Tickets, expected: &[Answer; 7], depth: usize) -> usize {
    let ballast = std::hint::black_box([depth; 2048]);
    if depth.is_multiple_of(4) {
        assert_eq!(all_six(tickets), *expected, "at depth {depth}");
    }
    let deeper = if depth < 36 { descend(tickets, expected, depth + 1) } else { 0 };
    deeper + ballast[depth] / (depth + 1)
}

#[test]
fn deep_calls() {
    let tickets = tickets();
    let expected = all_six(&tickets);
    let thread = thread::Builder::new()
        .stack_size(2 << 20)
        .spawn(move || descend(&tickets, &expected, 0));
    thread.expect("a thread").join().expect("answers all the way");
}

#[test]
fn nothing_lent() {
    let torn = Answer {
        number: 1,
        place: 1,
        count: 0,
    };
    assert_eq!(entries::judge(&[]), torn);
    assert_eq!(entries::write(&[], &mut []), torn);
    assert_eq!(entries::list(&[], &mut []), torn);
    assert_eq!(entries::quick(&[], 1, u64::MAX), torn);
    assert_eq!(entries::run(&[], &mut []), torn);
    assert_eq!(entries::reason(&[], &mut []), torn);
}

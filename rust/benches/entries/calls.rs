//! The five entries that have twins, and those, as calls of one form, and what they are called on.

use std::hint::black_box;

use hurkeztor::{Nest, Ticket, entries};

/// A ticket and the memory that is lent.
pub struct Subject {
    ticket: Ticket,
    out: Vec<u8>,
    store: Vec<u32>,
    pub iterations: usize,
    pub conflicts: u64,
}

pub type Call = fn(&mut Subject) -> [u64; 3];

pub struct Entry {
    pub name: &'static str,
    pub proved: Call,
    pub twin: Call,
}

fn of_proved(answer: entries::Answer) -> [u64; 3] {
    [answer.number.into(), answer.place.into(), answer.count.into()]
}

fn of_twin(answer: twin::Answer) -> [u64; 3] {
    [answer.number.into(), answer.place.into(), answer.count.into()]
}

pub static ENTRIES: [Entry; 5] = [
    Entry {
        name: "judge",
        proved: |s| of_proved(entries::judge(black_box(s.ticket.as_bytes()))),
        twin: |s| of_twin(twin::judge(black_box(s.ticket.as_bytes()))),
    },
    Entry {
        name: "write",
        proved: |s| of_proved(entries::write(black_box(s.ticket.as_bytes()), &mut s.out)),
        twin: |s| of_twin(twin::write(black_box(s.ticket.as_bytes()), &mut s.out)),
    },
    Entry {
        name: "list",
        proved: |s| of_proved(entries::list(black_box(s.ticket.as_bytes()), &mut s.out)),
        twin: |s| of_twin(twin::list(black_box(s.ticket.as_bytes()), &mut s.out)),
    },
    Entry {
        name: "quick",
        proved: |s| of_proved(entries::quick(black_box(s.ticket.as_bytes()), 1, 2)),
        twin: |s| of_twin(twin::quick(black_box(s.ticket.as_bytes()), 1, 2)),
    },
    Entry {
        name: "run",
        proved: |s| of_proved(entries::run(black_box(s.ticket.as_bytes()), &mut s.store)),
        twin: |s| of_twin(twin::run(black_box(s.ticket.as_bytes()), &mut s.store)),
    },
];

impl Subject {
    pub fn of(text: &str) -> Subject {
        let nest: Nest = text.parse().expect("a kernel's text is a nest");
        let elements = nest
            .arrays
            .iter()
            .map(|array| array.extents.iter().map(|e| *e as usize).product::<usize>());
        let store = vec![1; elements.sum()];
        let ticket = Ticket::from_nest(&nest).expect("a kernel's nest is a ticket");
        // The twin knows no circulations.
        let plain = Ticket::from_nest(&nest.without_steps()).expect("a kernel's nest is a ticket");
        let (iterations, conflicts) = twin::size(plain.as_bytes()).expect("a kernel is admitted");
        Subject {
            ticket,
            out: vec![0; 65_536],
            store,
            iterations,
            conflicts,
        }
    }

    pub fn bytes(&self) -> &[u8] {
        self.ticket.as_bytes()
    }

    pub fn call(&mut self, call: Call) {
        black_box(call(self));
    }

    /// Both tickets must be answered alike.
    pub fn answers_as(&mut self, other: &mut Subject, entry: &Entry) {
        assert_eq!((entry.proved)(self), (entry.proved)(other), "{} answers differently", entry.name);
        assert!(
            self.out == other.out && self.store == other.store,
            "{} leaves other memory",
            entry.name
        );
    }

    /// Both sides must do the same: answers and memory.
    pub fn check(&mut self, entry: &Entry) {
        let (out, store) = (self.out.clone(), self.store.clone());
        let proved = (entry.proved)(self);
        let (proved_out, proved_store) = (std::mem::replace(&mut self.out, out), std::mem::replace(&mut self.store, store));
        let twin = (entry.twin)(self);
        assert_eq!(proved, twin, "{} answers differently", entry.name);
        assert!(
            self.out == proved_out && self.store == proved_store,
            "{} leaves other memory",
            entry.name
        );
    }
}

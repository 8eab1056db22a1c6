//! Time of one call, by batches. Other work on the machine only ever adds time: what is told is the quickest of all batches. Batches of the
//! two sides take turns, so that both see the same machine, and those of one row are spread over several passes.

use std::time::{Duration, Instant};

use crate::calls::{Entry, Subject};

pub struct Effort {
    pub passes: usize,
    /// For each side in a pass.
    pub batches: usize,
    pub batch: Duration,
}

impl Effort {
    pub const FULL: Effort = Effort {
        passes: 8,
        batches: 6,
        batch: Duration::from_millis(1),
    };
    /// No more than that every row can be run.
    pub const ONCE: Effort = Effort {
        passes: 1,
        batches: 1,
        batch: Duration::ZERO,
    };
    pub const QUICK: Effort = Effort {
        passes: 3,
        batches: 3,
        batch: Duration::from_micros(300),
    };
}

/// Nanoseconds for one call.
#[derive(Clone, Copy)]
pub struct Times {
    pub proved: f64,
    pub twin: f64,
}

impl Times {
    pub fn ratio(&self) -> f64 {
        self.proved / self.twin
    }
}

/// Nanoseconds for each of so many calls.
pub fn batch(calls: u32, mut call: impl FnMut()) -> f64 {
    let begun = Instant::now();
    for _ in 0..calls {
        call();
    }
    begun.elapsed().as_nanos() as f64 / calls as f64
}

/// How many calls fill a batch; finding out is the warm-up.
pub fn calls_for(length: Duration, mut call: impl FnMut()) -> u32 {
    let mut calls = 1;
    while batch(calls, &mut call) * (calls as f64) < length.as_nanos() as f64 {
        calls *= 2;
    }
    calls
}

/// One entry on one subject, proved and twin.
pub struct Trial {
    entry: &'static Entry,
    pub subject: Subject,
    proved_calls: u32,
    twin_calls: u32,
    /// The least so far.
    pub times: Times,
}

impl Trial {
    pub fn new(entry: &'static Entry, mut subject: Subject, effort: &Effort) -> Trial {
        subject.check(entry);
        Trial {
            entry,
            proved_calls: calls_for(effort.batch, || subject.call(entry.proved)),
            twin_calls: calls_for(effort.batch, || subject.call(entry.twin)),
            subject,
            times: Times {
                proved: f64::INFINITY,
                twin: f64::INFINITY,
            },
        }
    }

    pub fn pass(&mut self, effort: &Effort) {
        let (entry, subject) = (self.entry, &mut self.subject);
        for _ in 0..effort.batches {
            let proved = batch(self.proved_calls, || subject.call(entry.proved));
            let twin = batch(self.twin_calls, || subject.call(entry.twin));
            self.times.proved = self.times.proved.min(proved);
            self.times.twin = self.times.twin.min(twin);
        }
    }
}

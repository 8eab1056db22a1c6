//! Compares the six entries with the reference on as many tickets as one likes.
//!
//!     cargo run --release --example differential -- --tickets 1000000 --seed 7
//!
//! With `--four-kinds` no ticket has a circulation. The digest of the first five entries is then the same for a library that knows none, if it
//! answers the other tickets alike. With `--out-of-order` half of the tickets are refused with 10, with `--far-apart` indices are far apart.

#[path = "../tests/compare/mod.rs"]
mod compare;

use std::env;
use std::io::{IsTerminal, Write, stderr};
use std::process::ExitCode;
use std::time::{Duration, Instant};

use compare::{Compared, Tally, compare, has_circulation};
use reference::tickets::{far_apart_ticket, out_of_order_ticket, ticket, ticket_of_four_kinds};

const HELP: &str = "Compares the six entries of Hurkeztor with the reference: number, place, count and all lent memory.

Usage: differential [--tickets N] [--seed N] [--first N] [--four-kinds | --out-of-order | --far-apart]

  --tickets N      how many tickets (20000)
  --seed N         the seed that they are made from (1)
  --first N        the index of the first one (0); with --tickets 1 a ticket is compared again alone
  --four-kinds     tickets of exchanges, reversals, skews and sections alone; those that have kind 5 by damage are left out
  --out-of-order   tickets of which half are refused with 10, some by the table alone
  --far-apart      tickets with indices whose difference is no word

The digests are of all answers of the library and of all memory that it leaves, one for judge, write, list, quick and run, one for reason.

The exit status is 0 where all answers are equal, 1 where some differ, 2 on bad usage.";

const MOST_SHOWN: u64 = 10;

struct Wanted {
    tickets: u64,
    seed: u64,
    first: u64,
    stream: Stream,
}

/// Which tickets are made.
#[derive(Clone, Copy, PartialEq)]
enum Stream {
    All,
    FourKinds,
    OutOfOrder,
    FarApart,
}

impl Stream {
    fn made(self) -> fn(u64, u64) -> Vec<u8> {
        match self {
            Stream::All => ticket,
            Stream::FourKinds => ticket_of_four_kinds,
            Stream::OutOfOrder => out_of_order_ticket,
            Stream::FarApart => far_apart_ticket,
        }
    }

    fn named(option: &str) -> Option<Stream> {
        match option {
            "--four-kinds" => Some(Stream::FourKinds),
            "--out-of-order" => Some(Stream::OutOfOrder),
            "--far-apart" => Some(Stream::FarApart),
            _ => None,
        }
    }
}

/// Nothing where help is asked for.
fn wanted(mut arguments: impl Iterator<Item = String>) -> Result<Option<Wanted>, String> {
    let mut wanted = Wanted {
        tickets: 20_000,
        seed: 1,
        first: 0,
        stream: Stream::All,
    };
    while let Some(name) = arguments.next() {
        let place = match name.as_str() {
            "--help" | "-h" => return Ok(None),
            "--tickets" => &mut wanted.tickets,
            "--seed" => &mut wanted.seed,
            "--first" => &mut wanted.first,
            _ => match Stream::named(&name) {
                Some(_) if wanted.stream != Stream::All => return Err(format!("{name} comes after another choice of tickets.")),
                Some(stream) => {
                    wanted.stream = stream;
                    continue;
                }
                None => return Err(format!("There is no option {name}.")),
            },
        };
        let value = arguments.next().ok_or(format!("{name} needs a number after it."))?;
        *place = value.parse().map_err(|_| format!("{name} needs a number, and {value} is none."))?;
    }
    if wanted.first.checked_add(wanted.tickets).is_none() {
        return Err("--first and --tickets together are beyond 64 bits.".into());
    }
    Ok(Some(wanted))
}

/// A line on a terminal, at most twice a second.
struct Progress {
    shown: bool,
    last: Instant,
}

impl Progress {
    fn tell(&mut self, done: u64, of: u64, differences: u64) {
        if self.shown && self.last.elapsed() > Duration::from_millis(500) {
            self.last = Instant::now();
            eprint!("\r{done} of {of} tickets, {differences} different ");
            let _ = stderr().flush();
        }
    }

    fn end(&self) {
        if self.shown {
            eprint!("\r\x1b[K");
        }
    }
}

fn compare_all(wanted: &Wanted) -> u64 {
    let made = wanted.stream.made();
    let (mut tally, mut differences) = (Tally::default(), 0);
    let begun = Instant::now();
    let mut progress = Progress {
        shown: stderr().is_terminal(),
        last: begun,
    };
    for done in 0..wanted.tickets {
        progress.tell(done, wanted.tickets, differences);
        let index = wanted.first + done;
        if wanted.stream == Stream::FourKinds && has_circulation(&made(wanted.seed, index)) {
            continue;
        }
        if let Err(difference) = compare(Compared::All, made, wanted.seed, index, &mut tally) {
            differences += 1;
            if differences <= MOST_SHOWN {
                progress.end();
                println!("{difference}");
            }
        }
    }
    progress.end();
    let least = (0..=16).map(|number| tally.of_number(number)).min().unwrap_or(0);
    let seconds = begun.elapsed().as_secs();
    println!("{tally}{differences} different, every number at least {least} times, {seconds} s");
    differences
}

fn main() -> ExitCode {
    match wanted(env::args().skip(1)) {
        Ok(Some(wanted)) if compare_all(&wanted) == 0 => ExitCode::SUCCESS,
        Ok(Some(_)) => ExitCode::from(1),
        Ok(None) => {
            println!("{HELP}");
            ExitCode::SUCCESS
        }
        Err(message) => {
            eprintln!("{message} See --help.");
            ExitCode::from(2)
        }
    }
}

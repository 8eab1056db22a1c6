//! What a user sees while the library is proved.
//!
//! Cargo keeps what a build script prints until the script has ended, so that this goes to cargo's own standard error: a bar that stands in one
//! line of a terminal, elsewhere a line for each crate.

use std::fs::{self, File, OpenOptions};
use std::io::{IsTerminal, Write};
use std::os::unix::process::parent_id;

/// The processor minutes that the proofs of the library took with an older kit.
const PROCESSOR_MINUTES: usize = 13;
/// As many crates are proved at a time, where there is memory for them.
const MOST_JOBS: usize = 4;
const KILOBYTES_FOR_ONE: usize = 3_000_000;
const BAR_WIDTH: usize = 30;

/// The crates of the repository that a crate names in crates.txt.
pub fn dependencies<'a>(crates: &'a str, name: &str) -> Vec<&'a str> {
    // a static library has a word behind its name
    let listed = |line: &'a str| {
        let (listed, named) = line.split('#').next()?.split_once(':')?;
        Some((listed.split_whitespace().next()?, named))
    };
    let lines: Vec<_> = crates.lines().filter_map(listed).collect();
    let of = lines.iter().filter(|(listed, _)| *listed == name);
    let named = of.flat_map(|(_, named)| named.split_whitespace());
    named.filter(|name| lines.iter().any(|(listed, _)| listed == name)).collect()
}

/// The crates that have to be proved for this one: itself, then those below it.
pub fn reached<'a>(crates: &'a str, name: &'a str) -> Vec<&'a str> {
    let mut reached = vec![name];
    let mut at = 0;
    while at < reached.len() {
        for next in dependencies(crates, reached[at]) {
            if !reached.contains(&next) {
                reached.push(next);
            }
        }
        at += 1;
    }
    reached
}

/// The crate that a line of rt's output tells the end of: what it printed of the crate follows.
pub fn ended(line: &str) -> Option<&str> {
    line.strip_prefix("== ").filter(|name| *name != "summary")
}

/// Whether a line of what rt printed of a crate says that it was proved just now. Of an unchanged library it prints nothing.
pub fn proves(line: &str) -> bool {
    line.starts_with("logic=proved ")
}

/// What rt printed of the first crate that failed; all of it where no crate is named.
pub fn failing(lines: &[String]) -> &[String] {
    let Some(name) = lines.iter().find_map(|line| Some(line.split_once(": failed (")?.0)) else {
        return lines;
    };
    let Some(start) = lines.iter().position(|line| ended(line) == Some(name)) else {
        return lines;
    };
    let own = &lines[start..];
    let end = own[1..].iter().position(|line| line.starts_with("== "));
    &own[..end.map_or(own.len(), |end| end + 1)]
}

/// Counts the crates below the library whose end rt has told.
pub struct Count {
    below: Vec<String>,
    ended: usize,
    last: Option<String>,
}

impl Count {
    /// The library stands first.
    pub fn new(library: &[&str]) -> Count {
        Count {
            below: library[1..].iter().map(|name| name.to_string()).collect(),
            ended: 0,
            last: None,
        }
    }

    /// Takes in a line of rt's output: if it says that a crate below the library was proved just now, how many have ended and its name.
    pub fn read(&mut self, line: &str) -> Option<(usize, String)> {
        if let Some(name) = ended(line) {
            self.last = self.below.iter().find(|below| *below == name).cloned();
            self.ended += usize::from(self.last.is_some());
        }
        if !proves(line) {
            return None;
        }
        self.last.take().map(|name| (self.ended, name))
    }
}

pub struct Progress {
    shown: Option<File>,
    in_place: bool,
    total: usize,
    count: Count,
    started: bool,
}

impl Progress {
    pub fn new(library: &[&str]) -> Progress {
        let shown = cargo_errors();
        let in_place = shown.as_ref().is_some_and(File::is_terminal) && std::env::var_os("TERM").is_some_and(|name| name != "dumb");
        Progress {
            shown,
            in_place,
            total: library.len(),
            count: Count::new(library),
            started: false,
        }
    }

    /// Takes in a line of rt's output.
    pub fn read(&mut self, line: &str) {
        if let Some((proved, name)) = self.count.read(line) {
            self.show(proved, &name);
        }
    }

    /// The last crate: the library's code.
    pub fn last(&mut self, name: &str) {
        self.show(self.total, name);
    }

    fn show(&mut self, proved: usize, name: &str) {
        let Some(shown) = &mut self.shown else { return };
        let mut text = String::new();
        if !self.started {
            self.started = true;
            text += &format!("{}\n", head(self.total + 1 - proved, self.total, jobs()));
        } else if self.in_place {
            // Back to the line of the bar: cargo's own stands below it.
            text += "\x1b[1A";
        }
        if self.in_place {
            text += &format!("\r\x1b[K{}\n", bar(proved, self.total, name));
        } else {
            text += &format!("{}\n", step(proved, self.total, name));
        }
        // Who cannot be shown anything is still given the library.
        let _ = shown.write_all(text.as_bytes());
    }
}

/// A file that cargo's standard error goes to is left alone: cargo would write over what was put there.
fn cargo_errors() -> Option<File> {
    let file = OpenOptions::new().append(true).open(format!("/proc/{}/fd/2", parent_id())).ok()?;
    if file.metadata().ok()?.is_file() { None } else { Some(file) }
}

/// How many crates are proved at a time: one a processor, as far as there is memory for them.
pub fn jobs() -> usize {
    let processors = std::thread::available_parallelism().map_or(1, |n| n.get());
    let room = fs::read_to_string("/proc/meminfo").ok().and_then(|text| available(&text));
    processors
        .min(MOST_JOBS)
        .min(room.map_or(1, |kilobytes| kilobytes / KILOBYTES_FOR_ONE))
        .max(1)
}

/// The kilobytes that /proc/meminfo says are available.
pub fn available(text: &str) -> Option<usize> {
    let line = text.lines().find_map(|line| line.strip_prefix("MemAvailable:"))?;
    line.trim().strip_suffix(" kB")?.parse().ok()
}

/// What is about to happen, and how long it takes where so many crates are left.
pub fn head(left: usize, total: usize, jobs: usize) -> String {
    let minutes = match (PROCESSOR_MINUTES * left).div_ceil(total * jobs) {
        0 | 1 => "a minute".to_string(),
        n => format!("{n} minutes"),
    };
    format!("Hurkeztor's library is proved before it is built: {left} of {total} crates, about {minutes}.")
}

pub fn step(proved: usize, total: usize, name: &str) -> String {
    format!("proving {proved} of {total}: {name}")
}

pub fn bar(proved: usize, total: usize, name: &str) -> String {
    let full = BAR_WIDTH * proved / total.max(1);
    format!("[{:-<BAR_WIDTH$}] {}", "=".repeat(full.min(BAR_WIDTH)), step(proved, total, name))
}

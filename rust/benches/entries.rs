//! Times each proved entry beside the twin on kernels of 6 to 4096 iterations; the reason entry, which the twin does not have, by itself.
//!
//!     cargo bench
//!     cargo bench -- --quick judge stencil
//!     cargo bench -- --write FOLDER

#[path = "entries/calls.rs"]
mod calls;
#[path = "entries/circulations.rs"]
mod circulations;
#[path = "entries/kernels.rs"]
mod kernels;
#[path = "entries/reasons.rs"]
mod reasons;
#[path = "entries/timing.rs"]
mod timing;

use std::env;
use std::fs;
use std::io::{IsTerminal, Write, stderr};
use std::path::{Path, PathBuf};
use std::process::ExitCode;

use calls::{ENTRIES, Entry, Subject};
use timing::{Effort, Trial};

const HELP: &str = "Times each proved entry beside the twin: the same algorithm in plain Rust, without proofs.

Usage: cargo bench [-- [--quick] [NAME ...]]
       cargo bench -- --write FOLDER

  --quick          fewer and shorter runs
  NAME             only rows whose entry or kernel has all these names in it, such as 'judge' or 'matrix';
                   'worked' is the table of worked cases, 'circulation' that of circulations, 'reason' that of the reason entry
  --write FOLDER   time nothing: write every worked case, and every kernel at every size, to FOLDER as a binary ticket

Columns: iterations of the nest; conflicts, the pairs of accesses that name one element (at least one writes); time of the proved entry and of
the twin; their ratio; growth of the proved entry's time for each doubling of the iterations since the row above (2 is linear); time of the
proved entry for each iteration and conflict.";

struct Wanted {
    effort: Effort,
    names: Vec<String>,
    /// Where tickets are to be written.
    folder: Option<PathBuf>,
}

impl Wanted {
    /// Nothing where help is asked for.
    fn of(mut arguments: impl Iterator<Item = String>) -> Result<Option<Wanted>, String> {
        let mut wanted = Wanted {
            effort: Effort::FULL,
            names: Vec::new(),
            folder: None,
        };
        let mut timed = false;
        while let Some(argument) = arguments.next() {
            match argument.as_str() {
                "--help" | "-h" => return Ok(None),
                "--quick" => wanted.effort = Effort::QUICK,
                // Cargo's own `--bench` comes after all others.
                "--write" => match arguments.next().filter(|folder| folder != "--bench") {
                    Some(folder) => wanted.folder = Some(folder.into()),
                    None => return Err("--write needs a folder.".into()),
                },
                // `cargo bench` hands this over, and `cargo test --benches` does not.
                "--bench" => timed = true,
                option if option.starts_with('-') => return Err(format!("There is no option {option}.")),
                name => wanted.names.push(name.to_lowercase()),
            }
        }
        if !timed {
            wanted.effort = Effort::ONCE;
        }
        Ok(Some(wanted))
    }

    fn has(&self, row: &str) -> bool {
        self.names.iter().all(|name| row.contains(name.as_str()))
    }
}

fn duration(nanoseconds: f64) -> String {
    match nanoseconds {
        t if t < 999_500.0 => format!("{:.1} µs", t / 1e3),
        t => format!("{:.2} ms", t / 1e6),
    }
}

fn head(title: &str) {
    println!("\n{title}");
    println!(
        "{:<24} {:>10} {:>10} {:>10} {:>10} {:>6} {:>7} {:>8}",
        "kernel", "iterations", "conflicts", "proved", "twin", "ratio", "growth", "ns each"
    );
}

struct Row {
    name: String,
    trial: Trial,
}

impl Row {
    fn new(name: &str, text: &str, entry: &'static Entry, effort: &Effort) -> Row {
        Row {
            name: name.into(),
            trial: Trial::new(entry, Subject::of(text), effort),
        }
    }

    /// How much longer it takes than the row above for each doubling of the iterations, where that has the same kernel.
    fn growth_since(&self, above: Option<&Row>) -> Option<f64> {
        let above = above.filter(|above| above.name == self.name)?;
        let doublings = (self.trial.subject.iterations as f64 / above.trial.subject.iterations as f64).log2();
        Some((self.trial.times.proved / above.trial.times.proved).powf(1.0 / doublings))
    }

    fn print(&self, above: Option<&Row>) {
        let (subject, times) = (&self.trial.subject, self.trial.times);
        let each = times.proved / (subject.iterations as f64 + subject.conflicts as f64).max(1.0);
        println!(
            "{:<24} {:>10} {:>10} {:>10} {:>10} {:>6.2} {:>7} {:>8.1}",
            self.name,
            subject.iterations,
            subject.conflicts,
            duration(times.proved),
            duration(times.twin),
            times.ratio(),
            self.growth_since(above).map_or(String::new(), |growth| format!("{growth:.2}")),
            each
        );
    }
}

fn progress(text: &str) {
    if stderr().is_terminal() {
        eprint!("\r\x1b[K{text}");
        let _ = stderr().flush();
    }
}

/// All rows once, then all again: a busy moment of the machine spoils one pass of a few rows.
fn bench_table(title: &str, mut rows: Vec<Row>, effort: &Effort) {
    for pass in 1..=effort.passes {
        progress(&format!("{title}: pass {pass} of {}", effort.passes));
        rows.iter_mut().for_each(|row| row.trial.pass(effort));
    }
    progress("");
    head(title);
    for (k, row) in rows.iter().enumerate() {
        row.print(k.checked_sub(1).map(|above| &rows[above]));
    }
    let mut ratios: Vec<f64> = rows.iter().map(|row| row.trial.times.ratio()).collect();
    ratios.sort_by(f64::total_cmp);
    if let [least, .., greatest] = ratios[..] {
        println!(
            "ratio: least {least:.2}, median {:.2}, greatest {greatest:.2}",
            ratios[ratios.len() / 2]
        );
    }
}

fn bench(wanted: &Wanted) -> Result<(), String> {
    let (judge, effort) = (&ENTRIES[0], &wanted.effort);
    let cases = kernels::worked_cases()?;
    let cases = cases.iter().filter(|(name, _)| wanted.has(&format!("worked judge {name}")));
    let rows: Vec<Row> = cases.map(|(name, text)| Row::new(name, text, judge, effort)).collect();
    if !rows.is_empty() {
        bench_table("worked cases 1 to 8: judge", rows, effort);
    }
    for entry in &ENTRIES {
        let kernels = kernels::KERNELS.iter();
        let kernels = kernels.filter(|kernel| wanted.has(&format!("{} {}", entry.name, kernel.name)));
        let texts = kernels.flat_map(|kernel| (kernel.sizes)().into_iter().map(|text| (kernel.name, text)));
        let rows: Vec<Row> = texts.map(|(name, text)| Row::new(name, &text, entry, effort)).collect();
        if !rows.is_empty() {
            bench_table(entry.name, rows, effort);
        }
    }
    circulations::bench(effort, |row| wanted.has(row));
    reasons::bench(effort, |row| wanted.has(row));
    Ok(())
}

/// Every worked case, and every kernel at every size. Names sort in the order of the tables, as in 'kernel-3-matrix-product-1000'.
fn write_tickets(folder: &Path) -> Result<(), String> {
    let plain = |name: &str| name.replace(',', "").replace(' ', "-");
    let mut tickets: Vec<(String, Subject)> = kernels::worked_cases()?
        .iter()
        .map(|(name, text)| (format!("case-{}", plain(name)), Subject::of(text)))
        .collect();
    for (k, kernel) in kernels::KERNELS.iter().enumerate() {
        for text in (kernel.sizes)() {
            let subject = Subject::of(&text);
            tickets.push((
                format!("kernel-{}-{}-{:04}", k + 1, plain(kernel.name), subject.iterations),
                subject,
            ));
        }
    }
    let failed = |path: &Path, error| format!("{} cannot be written: {error}.", path.display());
    fs::create_dir_all(folder).map_err(|error| failed(folder, error))?;
    for (name, subject) in &tickets {
        let file = folder.join(name);
        fs::write(&file, subject.bytes()).map_err(|error| failed(&file, error))?;
    }
    println!("{} tickets written to {}", tickets.len(), folder.display());
    Ok(())
}

fn main() -> ExitCode {
    let outcome = match Wanted::of(env::args().skip(1)) {
        Ok(Some(Wanted { folder: Some(folder), .. })) => write_tickets(&folder),
        Ok(Some(wanted)) => bench(&wanted),
        Ok(None) => {
            println!("{HELP}");
            Ok(())
        }
        Err(message) => Err(format!("{message} See 'cargo bench -- --help'.")),
    };
    match outcome {
        Ok(()) => ExitCode::SUCCESS,
        Err(message) => {
            eprintln!("{message}");
            ExitCode::from(2)
        }
    }
}

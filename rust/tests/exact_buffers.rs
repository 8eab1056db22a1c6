//! The six entries on heap buffers of exactly the right size, under valgrind: no byte beside them is read or written, and no answer hangs
//! on memory that was never set. The calls are in the example `exact_buffers`; the answers expected are the reference's.

use std::collections::BTreeSet;
use std::fs::{self, File};
use std::path::{Path, PathBuf};
use std::process::Command;

use reference::reason::Record;
use reference::tickets::{out_of_order_ticket, ticket};
use reference::{Answer, Answers};

const SEED: u64 = 5;
/// Of each number that judge answers, so many tickets are taken, and ten times as many that are accepted.
const OF_EACH: usize = 12;
const ITERATIONS: usize = 400;
/// As in the example.
const MOST_RECORDS: usize = 3000;

fn said(answer: Answer) -> String {
    format!("{} {} {}", answer.number, answer.place, answer.count)
}

fn sum(numbers: impl Iterator<Item = u32>) -> u32 {
    numbers.fold(0, |sum, number| sum.wrapping_mul(31).wrapping_add(number))
}

fn exactly(length: usize, entry: impl Fn(&mut [u8]) -> Answer) -> String {
    let told = [length, length.saturating_sub(1), 0].map(|length| {
        let mut out = vec![0; length];
        let answer = entry(&mut out);
        format!("{} {}", said(answer), sum(out.iter().map(|byte| u32::from(*byte))))
    });
    told.join(", ")
}

fn fields(record: &Record) -> impl Iterator<Item = u32> {
    let indices = [record.source, record.sink].concat();
    let rest = [record.source_statement, record.sink_statement, record.kind];
    indices.into_iter().map(|index| index as u32).chain(rest.map(u32::from))
}

const BLANK: Record = Record {
    source: [0; 4],
    sink: [0; 4],
    source_statement: 0,
    sink_statement: 0,
    kind: 0,
};

fn reason(answers: &Answers) -> String {
    let counted = answers.reason(&mut []);
    let pairs = if counted.number == 0 && counted.place > 0 {
        counted.count as usize
    } else {
        1
    };
    let pairs = pairs.min(MOST_RECORDS);
    let told = [pairs, pairs.saturating_sub(1), 0].map(|length| {
        let mut list = vec![BLANK; length];
        let answer = answers.reason(&mut list);
        format!("{} {}", said(answer), sum(list.iter().flat_map(fields)))
    });
    told.join(", ")
}

/// A line for the example, and the line that it answers.
struct Case {
    number: u8,
    line: String,
    expected: String,
}

fn case(bytes: &[u8], answers: &Answers) -> Case {
    let words = answers
        .admitted
        .as_ref()
        .map_or(0, |admitted| admitted.ticket.nest.elements() as usize);
    let digits: String = bytes.iter().map(|byte| format!("{byte:02x}")).collect();
    let digits = if digits.is_empty() { "-" } else { &digits };
    let written = answers.new_nest().map_or(0, |bytes| bytes.len());
    let listed = answers.listing().map_or(0, |text| text.len());
    let pairs = [(1, 1), (1, 2), (2, 1), (2, 3), (0, 1), (1, u64::MAX)];
    let quick = pairs.map(|(first, second)| said(answers.quick(first, second))).join(", ");
    let run = [words, words.saturating_sub(1), 0].map(|words| {
        let mut store: Vec<u32> = (0..words as u32).collect();
        let answer = answers.run(&mut store);
        format!("{} {}", said(answer), sum(store.iter().copied()))
    });
    let expected = format!(
        "judge {}; write {}; list {}; quick {quick}; run {}; reason {}",
        said(answers.judge()),
        exactly(written, |out| answers.write(out)),
        exactly(listed, |out| answers.list(out)),
        run.join(", "),
        reason(answers),
    );
    Case {
        number: answers.judge().number,
        line: format!("{words} {digits}"),
        expected,
    }
}

fn cases() -> Vec<Case> {
    let (mut cases, mut seen) = (vec![], [0; 14]);
    for index in 0.. {
        // Of the tickets out of order, those that are made to be.
        let bytes = if seen[10] < OF_EACH {
            out_of_order_ticket(SEED, index)
        } else {
            ticket(SEED, index)
        };
        let answers = Answers::to(&bytes);
        let small = answers
            .admitted
            .as_ref()
            .map_or(true, |admitted| admitted.points.len() <= ITERATIONS);
        let number = answers.judge().number as usize;
        let wanted = if number == 0 { 10 * OF_EACH } else { OF_EACH };
        if small && seen[number] < wanted {
            seen[number] += 1;
            cases.push(case(&bytes, &answers));
        }
        if seen[0] == 10 * OF_EACH && seen[1..].iter().all(|times| *times == OF_EACH) {
            break;
        }
    }
    cases
}

/// Built here, since a test that is run alone builds no example.
fn example() -> PathBuf {
    let test = std::env::current_exe().expect("this test's own path");
    let folder = test.ancestors().nth(2).expect("the folder of this profile");
    let target = folder.parent().expect("the folder of all profiles");
    let profile: &[&str] = if cfg!(debug_assertions) { &[] } else { &["--release"] };
    let built = Command::new(env!("CARGO"))
        .args(["build", "--quiet", "--example", "exact_buffers"])
        .args(profile)
        .arg("--target-dir")
        .arg(target)
        .current_dir(env!("CARGO_MANIFEST_DIR"))
        .status();
    assert!(built.expect("cargo").success(), "the example exact_buffers was not built");
    folder.join("examples/exact_buffers")
}

/// The numbers of all answers in the example's output.
fn numbers(told: &str) -> BTreeSet<u8> {
    let answers = told.split([';', ',', '\n']);
    let fields = answers.filter_map(|answer| answer.split(' ').find_map(|field| field.parse().ok()));
    fields.collect()
}

#[test]
fn no_entry_leaves_its_buffers() {
    if Command::new("valgrind").arg("--version").output().is_err() {
        println!("skipped: valgrind is not installed");
        return;
    }
    let cases = cases();
    let input = Path::new(env!("CARGO_TARGET_TMPDIR")).join("exact_buffers.txt");
    let lines: Vec<&str> = cases.iter().map(|case| case.line.as_str()).collect();
    fs::write(&input, lines.join("\n") + "\n").expect("a file for the tickets");
    let output = Command::new("valgrind")
        .args(["--quiet", "--error-exitcode=9", "--leak-check=no"])
        .arg(example())
        .stdin(File::open(&input).expect("the tickets"))
        .output()
        .expect("valgrind");
    let told = String::from_utf8_lossy(&output.stdout);
    let complaints = String::from_utf8_lossy(&output.stderr);
    assert!(output.status.success(), "{}\n{complaints}", output.status);
    assert_eq!(told.lines().count(), cases.len());
    assert_eq!(numbers(&told), (0..=16).collect());
    for (line, case) in told.lines().zip(&cases) {
        assert_eq!(line, case.expected, "a ticket of number {}: {}", case.number, case.line);
    }
}

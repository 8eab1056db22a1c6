//! The C example is built without a warning, linked with the archive that this package is linked with, and run.

use std::fs;
use std::io::Write;
use std::path::{Path, PathBuf};
use std::process::{Command, Output, Stdio};

fn root() -> PathBuf {
    Path::new(env!("CARGO_MANIFEST_DIR")).join("..")
}

/// Each test builds its own program, since tests run side by side.
fn built(name: &str) -> PathBuf {
    let program = Path::new(env!("CARGO_TARGET_TMPDIR")).join(name);
    let output = Command::new("cc")
        .args(["-std=c11", "-Wall", "-Wextra", "-Werror", "-O1"])
        .arg("-I")
        .arg(root().join("include"))
        .arg(root().join("c/judge.c"))
        .arg(env!("HURKEZTOR_ARCHIVE"))
        .arg("-o")
        .arg(&program)
        .output()
        .expect("the C compiler cc");
    assert!(output.status.success(), "cc failed:\n{}", String::from_utf8_lossy(&output.stderr));
    assert_eq!(String::from_utf8_lossy(&output.stderr), "");
    program
}

fn bytes(words: &str) -> Vec<u8> {
    let words = words.split_whitespace().map(|word| word.parse::<i16>().expect("a word"));
    words.flat_map(i16::to_le_bytes).collect()
}

fn fed(program: &Path, ticket: &[u8]) -> Output {
    let mut child = Command::new(program)
        .stdin(Stdio::piped())
        .stdout(Stdio::piped())
        .stderr(Stdio::piped())
        .spawn()
        .expect("the C example");
    let mut input = child.stdin.take().expect("its standard input");
    input.write_all(ticket).expect("the ticket read");
    drop(input);
    child.wait_with_output().expect("its output")
}

fn said(output: &Output) -> (Option<i32>, &str, &str) {
    let text = |bytes| std::str::from_utf8(bytes).expect("ASCII");
    (output.status.code(), text(&output.stdout), text(&output.stderr))
}

const CASE_1: &str = "2 1 1 0 1 1 1 1 1 0 0 1 1 2 0 2 1 4 2 2 3 1 3 0 1 0 1 1 1 2 0 1 0 0 0 1 1 1 1 2 0";
const REFUSED: &str = "\
judge: refused 10 1 out of order
reason: step 1, 2 pairs
O 1 1 (0, 1) (1, 0) <>
O 1 1 (0, 2) (1, 1) <>
write: refused 10 1 out of order
list:
2 6 1
O 1 1 <>
quick 1 1: perhaps
quick 1 2: apart
run: refused 10 1 out of order
";

/// i 0..2, j i..2, A(i,j) = A(i,j) + 1, exchange.
const TRIANGLE: &str = "2 1 1 0 1 1 2 1 1 0 1 1 1 2 0 1 2 3 3 1 1 1 1 0 1 0 0 0 1 1 1 0 1 0 0 0 1 1 1 1 2 0";
const ACCEPTED: &str = "\
judge: accepted, 6 iterations
write: 2 1 1 0 1 1 2 1 1 0 0 2 1 2 0 1 0 1 1 2 3 3 1 1 1 1 0 0 1 0 1 0 1 1 0 0 1 0 1 0 0
list:
2 6 0
quick 1 1: perhaps
quick 1 2: perhaps
run: 1 2 3 3 5 6 6 7 9
";

/// Case 3, skewed and then exchanged.
const SKEWED: &str = "2 1 1 1 1 1 2 1 1 0 0 1 1 2 0 1 2 3 4 1 3 0 1 0 1 0 0 0 1 1 1 -1 1 0 1 0 1 2 3 1 2 1 1 1 2 0";
/// i 0..9, A(0) = 0, reversed.
const ONE_ELEMENT: &str = "1 1 1 0 1 1 9 1 1 1 1 1 0 1 0 0 0 1 2 1 0 0";

const EMPTY: &str = "\
judge: refused 1 1 torn
write: refused 1 1 torn
list: refused 1 1 torn
quick 1 1: refused 1 1 torn
run: refused 1 1 torn
";

#[test]
fn the_example_answers_whole() {
    let program = built("judge");
    assert_eq!(said(&fed(&program, &bytes(CASE_1))), (Some(1), REFUSED, ""));
    assert_eq!(said(&fed(&program, &bytes(TRIANGLE))), (Some(0), ACCEPTED, ""));
    assert_eq!(said(&fed(&program, &[])), (Some(1), EMPTY, ""));
    let starts = |words: &str, start: &str| {
        let output = fed(&program, &bytes(words));
        let (status, out, _) = said(&output);
        assert!(status == Some(1) && out.starts_with(start), "{out}");
    };
    starts(
        SKEWED,
        "judge: refused 10 2 out of order\nreason: step 2, by the table alone\nwrite: ",
    );
    let from = |source: u32| (source + 1..=9).map(move |sink| format!("O 1 1 ({source}) ({sink}) <\n"));
    let first: String = (0..9).flat_map(from).take(20).collect();
    let start = format!("judge: refused 10 1 out of order\nreason: step 1, 45 pairs\n{first}(+25 more)\nwrite: ");
    starts(ONE_ELEMENT, &start);

    let file = Path::new(env!("CARGO_TARGET_TMPDIR")).join("triangle.ticket");
    fs::write(&file, bytes(TRIANGLE)).expect("a file for the ticket");
    let output = Command::new(&program).arg(&file).output().expect("the C example");
    assert_eq!(said(&output), (Some(0), ACCEPTED, ""));
}

#[test]
fn a_missing_file_is_told() {
    let output = Command::new(built("judge-no-file"))
        .arg("no-such.ticket")
        .output()
        .expect("the C example");
    assert_eq!(
        said(&output),
        (Some(2), "", "judge: can't open no-such.ticket: No such file or directory\n")
    );
}

#[test]
fn the_header_has_the_version_of_the_package() {
    let header = fs::read_to_string(root().join("include/hurkeztor.h")).expect("the header");
    let version = env!("CARGO_PKG_VERSION");
    let mut lines = vec![format!("#define HURKEZTOR_VERSION \"{version}\"")];
    for (part, number) in ["MAJOR", "MINOR", "PATCH"].iter().zip(version.split('.')) {
        lines.push(format!("#define HURKEZTOR_VERSION_{part} {number}"));
    }
    for line in lines {
        assert!(header.lines().any(|l| l == line), "{line}");
    }
}

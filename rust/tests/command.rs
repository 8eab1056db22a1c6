//! The command as its users meet it: what it prints where, and how it ends.

use std::fs;
use std::io::Write;
use std::path::PathBuf;
use std::process::{Command, Stdio};

const CASE_1: &str = "\
# first echo folded into bins
array A(4)
array B(2, 3)

for i = 0 to 1
  for j = 0 to 2
    A(i+j) = B(i, j)

exchange 1 2
";
const CASE_1_WORDS: &str = "2 1 1 0 1 1 1 1 1 0 0 1 1 2 0 2 1 4 2 2 3 1 3 0 1 0 1 1 1 2 0 1 0 0 0 1 1 1 1 2 0\n";
/// One statement in three loops, the outermost moved inwards.
const MOVED: &str =
    "array A(2, 3, 4)\n\nfor row = 0 to 1\n  for col = row to 2\n    for bin = 0 to 3\n      A(row, col, bin) = 1\n\nmove 1 to 3\n";
const CASE_2: &str = "array A(3, 4)\nfor row = 0 to 2\n  for col = 1 to 3\n    A(row, col) = A(row, col-1)\nexchange 1 2\n";

struct Ended {
    status: i32,
    out: Vec<u8>,
    err: String,
}

impl Ended {
    fn text(&self) -> &str {
        std::str::from_utf8(&self.out).expect("a text")
    }
}

/// Runs the command with the given words and standard input.
fn hurkeztor(words: &[&str], input: impl AsRef<[u8]>) -> Ended {
    let mut command = Command::new(env!("CARGO_BIN_EXE_hurkeztor"));
    command
        .args(words)
        .stdin(Stdio::piped())
        .stdout(Stdio::piped())
        .stderr(Stdio::piped());
    let mut child = command.spawn().expect("the command runs");
    // One that is used badly ends without reading.
    let _ = child.stdin.take().expect("a pipe").write_all(input.as_ref());
    let output = child.wait_with_output().expect("the command ends");
    Ended {
        status: output.status.code().expect("a status"),
        out: output.stdout,
        err: String::from_utf8(output.stderr).expect("a text"),
    }
}

/// A path in the tests' own folder.
fn scratch(name: &str) -> PathBuf {
    PathBuf::from(env!("CARGO_TARGET_TMPDIR")).join(name)
}

fn check(words: &[&str], input: impl AsRef<[u8]>, status: i32, out: &str) {
    let ended = hurkeztor(words, input);
    assert_eq!((ended.status, ended.text()), (status, out), "{words:?}: {}", ended.err);
}

#[test]
fn judge_points_into_the_text() {
    let meaning = "a direction points backwards after the step";
    let note = "note: A(1): written at (0, 1), then at (1, 0): <> before the step, >< after it\n";
    let below = format!("  exchange 1 2\n  ^^^^^^^^^^^^\n{note}");
    check(
        &["judge"],
        CASE_1,
        1,
        &format!("refused 10 at step 1, out of order\n<standard input>:9:1: {meaning}\n{below}"),
    );
    let file = scratch("case-1.ticket");
    fs::write(&file, CASE_1).expect("the file");
    let path = file.to_str().expect("a path");
    check(
        &["judge", path],
        "",
        1,
        &format!("refused 10 at step 1, out of order\n{path}:9:1: {meaning}\n{below}"),
    );
    check(&["judge", "-"], CASE_2, 0, "accepted: 9 iterations\n");
}

#[test]
fn a_note_has_the_vector_at_the_refused_step() {
    let note = |input: &str| {
        let ended = hurkeztor(&["judge"], input);
        assert_eq!(ended.status, 1);
        ended.text().lines().last().expect("a note").to_string()
    };
    let moved = "array A(3, 4)\nfor i = 1 to 2\n  for j = 0 to 2\n    A(i, j) = A(i-1, j+1)\n";
    assert_eq!(
        note(&format!("{moved}reverse 2\nexchange 1 2\nreverse 1\n")),
        "note: A(1, 1): written at (1, 1), then read at (2, 0): << before the step, >< after it"
    );
    assert_eq!(
        note(&format!("{moved}section 2 by 2\nreverse 1\n")),
        "note: A(1, 1): written at (1, 1), then read at (2, 0): <=> before the step, >=> after it"
    );
    assert_eq!(
        note(&format!("{moved}skew 1 2 by 1\nexchange 1 2\n")),
        "note: by the table alone: no pair trades places"
    );
    assert_eq!(
        note(&CASE_1.replace("array A(4)", "array A(3)")),
        "      ^^^^^^^^^^^^^^^^",
        "no note but after 10"
    );
}

/// Two statements that read and write each other's arrays.
const BOTH_WAYS: &str = "array A(5)\narray B(4)\nfor i = 1 to 3\n  A(i) = B(i)\n  B(i) = A(i-1) + A(i+1)\nreverse 1\n";

#[test]
fn why_names_the_pairs() {
    let refused = "\
refused 10 at step 1, out of order
<standard input>:9:1: a direction points backwards after the step
  exchange 1 2
  ^^^^^^^^^^^^
";
    let pairs = "  A(1): written at (0, 1), then at (1, 0)\n  A(2): written at (0, 2), then at (1, 1)\n";
    let first = pairs.lines().next().expect("a pair");
    check(&["why"], CASE_1, 1, &format!("{refused}2 pairs trade places\n{pairs}"));
    check(
        &["why", "--most", "2"],
        CASE_1,
        1,
        &format!("{refused}2 pairs trade places\n{pairs}"),
    );
    check(
        &["why", "--most=1"],
        CASE_1,
        1,
        &format!("{refused}2 pairs trade places\n{first}\n  (+1 more)\n"),
    );
    check(&["why", "--most", "0"], CASE_1, 1, &format!("{refused}2 pairs trade places\n"));
    let both_ways = "\
4 pairs trade places
  A(1): written by statement 1 at (1), then read by statement 2 at (2)
  A(2): read by statement 2 at (1), then written by statement 1 at (2)
  A(2): written by statement 1 at (2), then read by statement 2 at (3)
  A(3): read by statement 2 at (2), then written by statement 1 at (3)
";
    assert!(hurkeztor(&["why"], BOTH_WAYS).text().ends_with(both_ways));
    let one = hurkeztor(&["why"], "array Bin(1)\nfor row = 0 to 1\n  Bin(0) = 1\nreverse 1\n");
    assert!(
        one.text()
            .ends_with("1 pair trades places\n  Bin(0): written at (0), then at (1)\n")
    );
    let many = "array A(1)\nfor i = 1 to 4096\n  A(0) = 1\nreverse 1\n";
    let told = hurkeztor(&["why"], many);
    assert!(told.text().contains("\n8386560 pairs trade places\n") && told.text().ends_with("  (+8386540 more)\n"));
}

#[test]
fn why_answers_as_judge_where_it_is_not_10() {
    check(&["why"], CASE_2, 0, "accepted: 9 iterations\n");
    for input in [
        CASE_1.replace("array A(4)", "array A(3)"),
        CASE_1_WORDS.replace(" 0\n", "\n"),
        String::new(),
    ] {
        let judged = hurkeztor(&["judge"], &input);
        assert_eq!(judged.status, 1);
        check(&["why"], &input, 1, judged.text());
    }
    let skewed = "array A(3, 4)\nfor i = 1 to 2\n  for j = 0 to 2\n    A(i, j) = A(i-1, j+1)\nskew 1 2 by 1\nexchange 1 2\n";
    let told = hurkeztor(&["why"], skewed);
    assert!(told.status == 1 && told.text().ends_with("^\nby the table alone: no pair trades places\n"));
}

#[test]
fn the_form_is_found_out() {
    let packed = hurkeztor(&["pack"], CASE_1).out;
    assert_eq!(packed.len(), 82);
    for input in [
        CASE_1.as_bytes(),
        CASE_1_WORDS.as_bytes(),
        format!("\n# words\n {CASE_1_WORDS}").as_bytes(),
        &packed,
    ] {
        assert_eq!(hurkeztor(&["pack"], input).out, packed);
        check(&["unpack", "--as-words"], input, 0, CASE_1_WORDS);
        assert!(
            hurkeztor(&["judge"], input)
                .text()
                .starts_with("refused 10 at step 1, out of order\n")
        );
        check(&["list"], input, 0, "2 6 1\nO 1 1 <>\n");
    }
    for text in [
        format!("\u{feff}{CASE_1}"),
        CASE_1.replace('\n', "\r\n"),
        format!("\u{feff}{CASE_1_WORDS}"),
    ] {
        assert_eq!(hurkeztor(&["pack"], text).out, packed);
    }
    check(&["unpack"], &packed, 0, CASE_1.split_once('\n').expect("lines").1);
    check(
        &["judge", "--as", "binary"],
        &CASE_1_WORDS[..3],
        1,
        "refused 3 at word 1, bad count\na count is outside its range\n",
    );
    check(
        &["judge"],
        "",
        1,
        "refused 1 at word 1, torn\na needed word is missing or half there\n",
    );
    check(&["unpack"], &packed[..81], 1, "");
    let words = "2 1 1 0 1 1 1\n  7 # no count of limits\n";
    let place = "<standard input>:2:3: a count is outside its range\n    7 # no count of limits\n    ^\n";
    check(&["judge"], words, 1, &format!("refused 3 at word 8, bad count\n{place}"));
}

#[test]
fn write_keeps_form_and_names() {
    let new = "array A(3, 4)\n\nfor col = 1 to 3\n  for row = 0 to 2\n    A(row, col) = A(row, col-1)\n";
    let ended = hurkeztor(&["write"], CASE_2);
    assert_eq!(
        (ended.status, ended.text(), ended.err.as_str()),
        (0, new, "accepted: a new nest of 76 bytes\n")
    );
    let words = hurkeztor(&["unpack", "--as-words"], CASE_2).out;
    let written = hurkeztor(&["write"], &words);
    assert!(written.text().starts_with("2 1 1 1 1 1 3 "));
    check(&["write", "--as-text"], &words, 0, &new.replace("col", "j").replace("row", "i"));
    let binary = hurkeztor(&["write", "--as-binary"], &words).out;
    check(&["unpack", "--as-words"], &binary, 0, written.text());
    let file = scratch("new.ticket");
    let path = file.to_str().expect("a path");
    check(&["write", "-o", path], CASE_2, 0, "accepted: a new nest of 76 bytes\n");
    assert_eq!(fs::read_to_string(&file).expect("the file"), new);
    let refused = hurkeztor(&["write"], CASE_1);
    assert_eq!((refused.status, refused.text()), (1, ""));
    assert!(refused.err.starts_with("refused 10 at step 1, out of order\n"));
}

#[test]
fn quick_names_the_accesses() {
    check(
        &["quick", "1", "2"],
        CASE_1,
        0,
        "apart: access 1, A(i+j), and access 2, B(i, j), never name one element\n",
    );
    check(
        &["quick", "1", "1"],
        CASE_1,
        0,
        "perhaps: access 1, A(i+j), and access 1, A(i+j), may name one element\n",
    );
    let count = "accesses are numbered from 1 to 2: each statement's write, then its reads\n";
    check(
        &["quick", "0", "3"],
        CASE_1,
        1,
        &format!("refused 4, bad word\nthe ticket has no such access\n{count}"),
    );
}

#[test]
fn run_prints_arrays() {
    let nest = "array A(2, 2)\narray B(2, 1, 2)\nfor i = 0 to 1\n for j = 0 to 1\n  B(i, 0, j) = A(i, j) + 10\nexchange 1 2\n";
    check(
        &["run"],
        nest,
        0,
        "accepted: 4 iterations\nA\n  0 0\n  0 0\nB(0, , )\n  10 10\nB(1, , )\n  10 10\n",
    );
    let file = scratch("store.txt");
    let path = file.to_str().expect("a path");
    fs::write(&file, "1 2 # A\n3 4294967295\n0 0 0 0\n").expect("the file");
    let after = "A\n           1          2\n           3 4294967295\nB(0, , )\n  11 12\nB(1, , )\n  13  9\n";
    check(&["run", "--store", path], nest, 0, &format!("accepted: 4 iterations\n{after}"));
    fs::write(&file, "1 2 3").expect("the file");
    let refused = "refused 16, wrong store\nthe store's length is not the total of elements\n";
    check(&["run", "--store", path], nest, 1, refused);
    let once = hurkeztor(&["run", "--fill", "7", "--before"], nest);
    assert_eq!(once.out, hurkeztor(&["run", "--fill=7", "--before"], nest).out);
    assert_ne!(once.out, hurkeztor(&["run", "--fill", "8", "--before"], nest).out);
    let opaque = "array A(2)\nfor i = 0 to 1\n  A(i) = opaque()\n";
    assert!(
        hurkeztor(&["run"], opaque)
            .text()
            .starts_with("refused 15 at statement 1, opaque\n<standard input>:3:3:")
    );
}

#[test]
fn show_sets_nests_side_by_side() {
    let shown = "\
accepted: 9 iterations

  ticket                           |  new nest
                                   |
  array A(3, 4)                    |  array A(3, 4)
                                   |
  for row = 0 to 2                 |  for col = 1 to 3
    for col = 1 to 3               |    for row = 0 to 2
      A(row, col) = A(row, col-1)  |      A(row, col) = A(row, col-1)
                                   |
  exchange 1 2                     |
";
    check(&["show"], CASE_2, 0, shown);
    let refused = hurkeztor(&["show"], CASE_1);
    assert_eq!(refused.status, 1);
    assert!(refused.text().contains("\n> exchange 1 2 "), "{}", refused.text());
}

#[test]
fn a_moved_loop_keeps_its_name() {
    let shown = "\
accepted: 20 iterations

  ticket                      |  new nest
                              |
  array A(2, 3, 4)            |  array A(2, 3, 4)
                              |
  for row = 0 to 1            |  for col = 0 to 2
    for col = row to 2        |    for bin = 0 to 3
      for bin = 0 to 3        |      for row = 0 to min(1, col)
        A(row, col, bin) = 1  |        A(row, col, bin) = 1
                              |
  move 1 to 3                 |
";
    check(&["show"], MOVED, 0, shown);
    let exchanged = MOVED.replace("move 1 to 3", "exchange 1 2\nexchange 2 3");
    assert_eq!(hurkeztor(&["write"], MOVED).out, hurkeztor(&["write"], &exchanged).out);
    let packed = hurkeztor(&["pack"], MOVED).out;
    assert_eq!(packed[packed.len() - 8..], [5, 0, 1, 0, 3, 0, 0, 0]);
    check(
        &["unpack"],
        &packed,
        0,
        &MOVED.replace("row", "i").replace("col", "j").replace("bin", "k"),
    );
    let meaning = "a loop or place that the step names is not there, or not where the step needs it, or a seventh loop would arise";
    check(
        &["judge"],
        MOVED.replace("1 to 3", "3 to 3"),
        1,
        &format!("refused 6 at step 1, off the nest\n<standard input>:8:1: {meaning}\n  move 3 to 3\n  ^^^^^^^^^^^\n"),
    );
    assert!(hurkeztor(&["draw"], MOVED).text().contains("After step 1, move 1 to 3"));
}

#[test]
fn list_explains() {
    let sentence = "statement 1 writes an element, and the same statement writes it again later: at a greater i and a smaller j";
    check(
        &["list", "--explain"],
        CASE_1,
        0,
        &format!("2 6 1\n    2 loops, 6 iterations, 1 line\nO 1 1 <>\n    {sentence}\n"),
    );
}

#[test]
fn draw_writes_a_picture_of_what_is_refused_too() {
    let file = scratch("case-1.svg");
    let ended = hurkeztor(&["draw", "-o", file.to_str().expect("a path")], CASE_1);
    assert_eq!(ended.status, 1);
    assert!(ended.text().starts_with("refused 10 at step 1, out of order\n"));
    assert_eq!(fs::read(&file).expect("the picture"), hurkeztor(&["draw"], CASE_1).out);
    assert_eq!(hurkeztor(&["draw"], CASE_2).status, 0);
    let nothing = hurkeztor(&["draw"], CASE_1.replace("array A(4)", "array A(3)"));
    assert_eq!((nothing.status, nothing.text()), (1, ""));
    assert!(nothing.err.starts_with("refused 9 at statement 1, off the array\n"));
}

#[test]
fn bad_usage_ends_with_2() {
    let cases: [(&[&str], &str, &str); 13] = [
        (&[], "", "hurkeztor: a verb is missing\n"),
        (&["jugde"], "", "hurkeztor: 'jugde' is no verb\n"),
        (
            &["judge", "--explain"],
            CASE_1,
            "hurkeztor judge: '--explain' is no option of this verb\n",
        ),
        (
            &["judge", "a", "b"],
            "",
            "hurkeztor judge: one file is judged at a time: 'b' is one too many\n",
        ),
        (&["judge", "--as"], "", "hurkeztor judge: --as needs a value\n"),
        (
            &["judge", "--as", "hex"],
            "",
            "hurkeztor judge: 'hex' is no form: forms are binary, words and text\n",
        ),
        (
            &["quick", "1"],
            "",
            "hurkeztor quick: the numbers of two accesses are needed, as in 'quick 1 2'\n",
        ),
        (
            &["quick", "1", "x"],
            "",
            "hurkeztor quick: 'x' is no access number: a whole number from 1 on is needed\n",
        ),
        (
            &["run", "--fill", "1", "--store", "x"],
            "",
            "hurkeztor run: --store and --fill exclude each other\n",
        ),
        (
            &["why", "--most", "few"],
            CASE_1,
            "hurkeztor why: 'few' is no count of pairs: a whole number is needed\n",
        ),
        (&["judge", "no/such/file"], "", "no/such/file: cannot be read: "),
        (
            &["judge"],
            "for i = 0 to x\n",
            "<standard input>:1:14: 'x' is no index here: no index is known\n  for i = 0 to x\n               ^\n",
        ),
        (
            &["judge", "--as", "words"],
            CASE_1,
            "<standard input>:2:1: expected a whole number from -32768 to 32767, found 'array'\n",
        ),
    ];
    for (words, input, message) in cases {
        let ended = hurkeztor(words, input);
        assert_eq!((ended.status, ended.text()), (2, ""), "{words:?}");
        assert!(ended.err.starts_with(message), "{words:?}: {}", ended.err);
    }
}

#[test]
fn help_for_each_verb() {
    let general = hurkeztor(&["--help"], "");
    assert_eq!(general.status, 0);
    assert!(general.text().contains("  move 1 to 3  "));
    for verb in ["judge", "why", "write", "list", "quick", "run", "show", "pack", "unpack", "draw"] {
        assert!(general.text().contains(&format!("  hurkeztor {verb} ")));
        let help = hurkeztor(&[verb, "--help"], "");
        assert!(help.status == 0 && help.text().starts_with(&format!("hurkeztor {verb} ")) && help.text().contains("Exit status: "));
        assert_eq!(help.out, hurkeztor(&["help", verb], "").out);
    }
    check(&["--version"], "", 0, concat!("hurkeztor ", env!("CARGO_PKG_VERSION"), "\n"));
}

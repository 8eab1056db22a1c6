//! What a build shows while the library is proved.

#[path = "../build/progress.rs"]
#[allow(dead_code)]
mod progress;

use progress::{Count, available, bar, dependencies, ended, failing, head, proves, reached, step};

const CRATES: &str = "# NAME: DEPENDENCIES\nlists:\nintegers: lists\n# rows\nrows: integers lists\nhurkeztor staticlib: rows integers # all\nlisting: hurkeztor io\n";

#[test]
fn crates_are_counted_as_rt_proves_them() {
    assert_eq!(dependencies(CRATES, "hurkeztor"), ["rows", "integers"]);
    assert_eq!(dependencies(CRATES, "listing"), ["hurkeztor"], "io is the toolchain's");
    assert_eq!(reached(CRATES, "lists"), ["lists"]);
    assert_eq!(reached(CRATES, "hurkeztor"), ["hurkeztor", "rows", "integers", "lists"]);
}

#[test]
fn the_library_s_crates_are_those_of_the_repository() {
    let crates = include_str!("../../crates.txt");
    let all = reached(crates, "hurkeztor").len();
    assert!(all > 10, "{all}");
    assert!(dependencies(crates, "hurkeztor").len() < all);
}

#[test]
fn a_line_of_rt_tells_of_a_crate() {
    assert_eq!(ended("== rows"), Some("rows"));
    assert_eq!(ended("== summary"), None);
    assert_eq!(ended("fn rows::narrow: proved"), None);
    assert_eq!(ended("rows: ok"), None);
    assert!(proves("logic=proved functions=15 sum=dac8208d650f15bf"));
    assert!(!proves("logic=not-proved functions=15"));
    assert!(!proves("fn rows::narrow: proved"));
}

/// What `rt all check` prints: of each crate as it ends all that its check printed, then a line for each.
const PRINTED: &str = "\
== lists
== integers
fn integers::gcd: proved
logic=proved functions=1 sum=0
== other
logic=proved functions=1 sum=0
== rows
./proofs/narrow/Answers.antt:3:5: error: not so
logic=not-proved functions=1
== summary
lists: ok
integers: ok
other: ok
rows: failed (1)
hurkeztor: not run, since rows failed
(1: not proved or not passed, 2: rattle failed, 3: antt could not tell)
3 of 5 crates ok
";

#[test]
fn crates_below_the_library_are_counted() {
    let mut count = Count::new(&reached(CRATES, "hurkeztor"));
    let shown: Vec<_> = PRINTED.lines().filter_map(|line| count.read(line)).collect();
    // lists is unchanged, other is no crate of the library, rows is not proved
    assert_eq!(shown, [(2, "integers".to_string())]);
}

#[test]
fn the_crate_that_failed_is_shown() {
    let lines = |text: &str| text.lines().map(String::from).collect::<Vec<_>>();
    let printed = lines(PRINTED);
    assert_eq!(
        failing(&printed),
        [
            "== rows",
            "./proofs/narrow/Answers.antt:3:5: error: not so",
            "logic=not-proved functions=1"
        ]
    );
    let early = lines("src/lib.rt:3:5: error[E0425]: no such name\nrt: mend these first\n");
    assert_eq!(failing(&early), early);
}

#[test]
fn memory_is_read() {
    assert_eq!(
        available("MemTotal:       32000000 kB\nMemAvailable:   24681012 kB\n"),
        Some(24681012)
    );
    assert_eq!(available("MemTotal:       32000000 kB\n"), None);
}

#[test]
fn lines_and_bars() {
    assert_eq!(step(17, 51, "dependence"), "proving 17 of 51: dependence");
    assert_eq!(
        bar(17, 51, "dependence"),
        "[==========--------------------] proving 17 of 51: dependence"
    );
    assert_eq!(
        bar(51, 51, "hurkeztor"),
        "[==============================] proving 51 of 51: hurkeztor"
    );
    assert!(head(51, 51, 2).ends_with("51 of 51 crates, about 7 minutes."));
    assert!(head(1, 51, 2).ends_with("1 of 51 crates, about a minute."));
}

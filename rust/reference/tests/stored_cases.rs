//! The stored output of the test program of the five entries is what the reference answers.

use std::fs;
use std::path::Path;
use std::sync::atomic::{AtomicUsize, Ordering};
use std::thread;

use reference::stored_cases::{Case, cases};

/// What each case has to print, worked out on all processors: some cases take seconds.
fn all_expected(cases: &[Case]) -> Vec<String> {
    let next = AtomicUsize::new(0);
    let worker = || {
        let mut done = vec![];
        loop {
            let number = next.fetch_add(1, Ordering::Relaxed);
            let Some(case) = cases.get(number) else {
                return done;
            };
            done.push((number, case.expected()));
        }
    };
    let processors = thread::available_parallelism().map_or(1, usize::from);
    let mut all: Vec<(usize, String)> = thread::scope(|scope| {
        let workers: Vec<_> = (0..processors).map(|_| scope.spawn(worker)).collect();
        let parts = workers.into_iter().map(|worker| worker.join().expect("the reference answers"));
        parts.flatten().collect()
    });
    all.sort();
    all.into_iter().map(|(_, expected)| expected).collect()
}

#[test]
fn the_stored_text_is_the_reference_s() {
    let program = Path::new(env!("CARGO_MANIFEST_DIR")).join("../../crates/test_entries");
    let given = fs::read(program.join("stdin")).expect("the program has cases");
    let stored = fs::read_to_string(program.join("stdout")).expect("the program has a text");
    let mut rest = stored.as_str();
    for (number, expected) in (1..).zip(all_expected(&cases(&given))) {
        rest = rest
            .strip_prefix(&expected)
            .unwrap_or_else(|| panic!("case {number}: the reference expects\n{expected}and stored is\n{:.400}", rest));
    }
    assert!(rest.is_empty(), "text without a case: {rest:.400}");
}

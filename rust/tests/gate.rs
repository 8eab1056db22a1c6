//! The gate's own script, with commands that do nothing in the place of the real ones: whatever part fails, the gate fails and says so last.

use std::fs;
use std::os::unix::fs::PermissionsExt;
use std::path::{Path, PathBuf};
use std::process::Command;

const CLOSING: &str = "5 passed, 0 failed";
const ALL_REFUSED: &str = "must-fail edits: 66 refused";

struct Gate {
    folder: PathBuf,
}

impl Gate {
    /// In this folder rt and cargo write down their first words, and fail at the words given. Where rt ci ends well it says what became of the edits.
    fn new(name: &str, failing: &[&str], edits: &str, closing: &str) -> Gate {
        let folder = Path::new(env!("CARGO_TARGET_TMPDIR")).join(format!("gate-{name}"));
        let _ = fs::remove_dir_all(&folder);
        fs::create_dir_all(folder.join(".ci")).expect("a folder");
        fs::create_dir_all(folder.join("bin")).expect("a folder");
        let script = Path::new(env!("CARGO_MANIFEST_DIR")).join("../.ci/run");
        fs::copy(script, folder.join(".ci/run")).expect("the gate's script");
        let gate = Gate { folder };
        for command in ["cargo-fmt", "cargo-clippy", "cc", "objdump", "valgrind"] {
            gate.put(command, "exit 0");
        }
        for command in ["rt", "cargo"] {
            let fails: String = failing.iter().map(|words| format!("  '{words}') bad=1 ;;\n")).collect();
            gate.put(
                command,
                &format!(
                    "echo \"{command} $1\" >>called\nbad=0\ncase \"{command} $1\" in\n{fails}  *) ;;\nesac\n\
                     if [ \"{command} $1\" = 'rt ci' ]; then\n\
                     echo 'rt: lists proved'\n\
                     if [ $bad = 0 ]; then echo 'rt: ok; handles allowed: none; {edits}; every proof was done in this run'; fi\n\
                     echo '{closing}'\nfi\n\
                     if [ \"{command} $1\" = 'cargo test' ]; then echo 'test result: done'; fi\nexit $bad"
                ),
            );
        }
        gate
    }

    fn put(&self, command: &str, text: &str) {
        let path = self.folder.join("bin").join(command);
        fs::write(&path, format!("#!/bin/sh\n{text}\n")).expect("a command");
        fs::set_permissions(&path, fs::Permissions::from_mode(0o755)).expect("a command");
    }

    /// How it ended, its lines, and what was called.
    fn run(&self) -> (bool, Vec<String>, Vec<String>) {
        let path = format!("{}:/usr/bin:/bin", self.folder.join("bin").display());
        let output = Command::new("bash")
            .arg(".ci/run")
            .current_dir(&self.folder)
            .env("PATH", path)
            .env("CARGO_HOME", &self.folder)
            .output()
            .expect("bash");
        let lines = |text: &str| text.lines().map(String::from).collect();
        let called = fs::read_to_string(self.folder.join("called")).unwrap_or_default();
        (
            output.status.success(),
            lines(&String::from_utf8_lossy(&output.stdout)),
            lines(&called),
        )
    }
}

#[test]
fn all_parts_pass() {
    let (passed, lines, called) = Gate::new("passes", &[], ALL_REFUSED, CLOSING).run();
    assert!(passed);
    assert_eq!(lines.last().expect("a line"), CLOSING);
    assert_eq!(
        lines.iter().filter(|line| *line == CLOSING).count(),
        1,
        "the closing line is last alone: {lines:?}"
    );
    assert_eq!(called, ["cargo fmt", "rt ci", "cargo clippy", "cargo test"]);
}

#[test]
fn a_failing_part_fails_the_gate() {
    for (name, part) in [("test", "cargo test"), ("clippy", "cargo clippy")] {
        let (passed, lines, _) = Gate::new(name, &[part], ALL_REFUSED, CLOSING).run();
        assert!(!passed, "{part}");
        assert_eq!(lines.last().expect("a line"), "5 passed, 1 failed");
        assert!(!lines.contains(&CLOSING.to_string()), "{part}: {lines:?}");
    }
    let (passed, lines, called) = Gate::new("layout", &["cargo fmt"], ALL_REFUSED, CLOSING).run();
    assert!(!passed);
    assert_eq!(lines.last().expect("a line"), "0 passed, 1 failed");
    assert!(!called.contains(&"rt ci".to_string()));
}

#[test]
fn a_failing_proof_fails_the_gate() {
    let (passed, lines, called) = Gate::new("proof", &["rt ci"], ALL_REFUSED, "4 passed, 1 failed").run();
    assert!(!passed);
    assert_eq!(lines.last().expect("a line"), "4 passed, 1 failed");
    assert!(!called.contains(&"cargo test".to_string()));
    // It counts nothing, though it says that it ended well.
    let (passed, lines, _) = Gate::new("nothing", &[], ALL_REFUSED, "no closing line").run();
    assert!(!passed);
    assert!(!lines.contains(&CLOSING.to_string()));
}

#[test]
fn an_edit_that_was_not_tried_fails_the_gate() {
    for edits in ["64 refused, 2 bad", "64 refused, 1 of them only by a limit, 2 bad"] {
        let (passed, lines, called) = Gate::new("edits", &[], &format!("must-fail edits: {edits}"), CLOSING).run();
        assert!(!passed, "{edits}");
        assert_eq!(lines.last().expect("a line"), "5 passed, 2 failed");
        assert!(!lines.contains(&CLOSING.to_string()), "{lines:?}");
        assert!(!called.contains(&"cargo test".to_string()));
    }
    for edits in ["66 refused", "66 refused, 1 of them only by a limit"] {
        let (passed, lines, _) = Gate::new("tried", &[], &format!("must-fail edits: {edits}"), CLOSING).run();
        assert!(passed, "{edits}");
        assert_eq!(lines.last().expect("a line"), CLOSING);
    }
}

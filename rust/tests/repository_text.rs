//! The scripts that read the repository's own text.

use std::path::Path;
use std::process::Command;

fn passes(interpreter: &str, script: &str) {
    let root = Path::new(env!("CARGO_MANIFEST_DIR")).join("..");
    let ran = Command::new(interpreter).arg(script).current_dir(root).output();
    let run = ran.unwrap_or_else(|error| panic!("{interpreter} has to be installed: {error}"));
    let said = String::from_utf8_lossy(&run.stdout);
    let failed = String::from_utf8_lossy(&run.stderr);
    assert!(run.status.success(), "{script}:\n{said}{failed}");
}

#[test]
fn the_demands_are_stated_without_proofs() {
    passes("bash", "tests/demands");
}

#[test]
fn every_name_in_the_documents_is_there() {
    passes("python3", "tests/names");
}

#[test]
fn no_old_name_is_left() {
    passes("python3", "docs/renaming/check");
}

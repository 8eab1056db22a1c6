//! Builds and links the proved library.
//!
//! In the repository's root this runs `rt all check`, which proves every crate, several at a time, and then in the folder of the crate `hurkeztor`
//! `rt lib`, which writes `out/libhurkeztor.a` over those proofs. Where HURKEZTOR_ARCHIVE_DIR names a folder, the archive in it is linked and no `rt`
//! is run.

use std::env;
use std::fs;
use std::io::{self, BufRead, BufReader, ErrorKind};
use std::path::{Path, PathBuf};
use std::process::{Command, ExitStatus, exit};

#[path = "build/progress.rs"]
mod progress;
use progress::Progress;

const LIBRARY: &str = "hurkeztor";
const ARCHIVE: &str = "libhurkeztor.a";
const LINES_SHOWN: usize = 30;

fn main() {
    println!("cargo::rerun-if-env-changed=HURKEZTOR_ARCHIVE_DIR");
    check_target();
    let folder = match env::var_os("HURKEZTOR_ARCHIVE_DIR") {
        Some(folder) => built_archive(PathBuf::from(folder)),
        None => build_archive(),
    };
    println!("cargo::rustc-link-search=native={}", folder.display());
    // For the test that links the C example with the same archive.
    println!("cargo::rustc-env=HURKEZTOR_ARCHIVE={}", folder.join(ARCHIVE).display());
    println!("cargo::rustc-link-lib=static=hurkeztor");
}

fn check_target() {
    let of = |name: &str| env::var(name).unwrap_or_default();
    let (arch, os) = (of("CARGO_CFG_TARGET_ARCH"), of("CARGO_CFG_TARGET_OS"));
    if arch != "x86_64" || os != "linux" {
        fail(&[format!(
            "The proved library is built for x86-64 Linux alone; this build is for {arch} {os}."
        )]);
    }
}

fn built_archive(folder: PathBuf) -> PathBuf {
    let archive = folder.join(ARCHIVE);
    println!("cargo::rerun-if-changed={}", archive.display());
    if !archive.is_file() {
        fail(&[
            format!("HURKEZTOR_ARCHIVE_DIR is set, and there is no {}.", archive.display()),
            "Write the archive with 'rt lib' in crates/hurkeztor, or unset HURKEZTOR_ARCHIVE_DIR to have it built.".into(),
        ]);
    }
    folder.canonicalize().unwrap_or(folder)
}

fn build_archive() -> PathBuf {
    let here = PathBuf::from(env::var_os("CARGO_MANIFEST_DIR").expect("cargo sets CARGO_MANIFEST_DIR"));
    let root = here
        .parent()
        .expect("the package stands in the repository's folder rust")
        .to_path_buf();
    println!("cargo::rerun-if-changed={}", root.join("crates.txt").display());
    let crates = match fs::read_to_string(root.join("crates.txt")) {
        Ok(crates) => crates,
        Err(error) => fail(&[format!("{} could not be read: {error}.", root.join("crates.txt").display())]),
    };
    let library = progress::reached(&crates, LIBRARY);
    // Beside them stands what rt keeps for its next run.
    for name in &library {
        let parts = ["src", "specs", "proofs"].map(|part| root.join("crates").join(name).join(part));
        for part in parts.iter().filter(|part| part.is_dir()) {
            println!("cargo::rerun-if-changed={}", part.display());
        }
    }
    let mut progress = Progress::new(&library);
    rt(&root, &["all", "check", "--jobs", &progress::jobs().to_string()], &mut progress);
    let folder = root.join("crates").join(LIBRARY);
    progress.last(LIBRARY);
    rt(&folder, &["lib"], &mut progress);
    let archive = folder.join("out").join(ARCHIVE);
    if !archive.is_file() {
        fail(&[format!("'rt lib' ended well and left no {}.", archive.display())]);
    }
    // A copy, since `rt ci` sets the folders out aside while it runs.
    let folder = PathBuf::from(env::var_os("OUT_DIR").expect("cargo sets OUT_DIR"));
    if let Err(error) = fs::copy(&archive, folder.join(ARCHIVE)) {
        fail(&[format!(
            "{} could not be copied to {}: {error}.",
            archive.display(),
            folder.display()
        )]);
    }
    folder
}

fn rt(folder: &Path, words: &[&str], progress: &mut Progress) {
    let ended = match run_rt(folder, words, progress) {
        Ok((status, _)) if status.success() => return,
        Ok(ended) => ended,
        Err(error) if error.kind() == ErrorKind::NotFound => fail(&[
            "Hurkeztor's library is proved and built by the Rattle toolchain, and its command 'rt' is not on the PATH.".into(),
            "Install the Rattle kit, then build again. Or set HURKEZTOR_ARCHIVE_DIR to a folder that holds libhurkeztor.a.".into(),
        ]),
        Err(error) => fail(&[format!("The command 'rt' could not be run: {error}.")]),
    };
    let (status, lines) = ended;
    let lines = progress::failing(&lines);
    let mut message = vec![format!(
        "'rt {}' failed in {} ({status}). It ends:",
        words.join(" "),
        folder.display()
    )];
    let shown = lines.iter().skip(lines.len().saturating_sub(LINES_SHOWN));
    message.extend(shown.map(|line| format!("  {line}")));
    fail(&message);
}

/// How rt ended, and all that it printed.
fn run_rt(folder: &Path, words: &[&str], progress: &mut Progress) -> io::Result<(ExitStatus, Vec<String>)> {
    let (printed, end) = io::pipe()?;
    let mut running = Command::new("rt")
        .args(words)
        .current_dir(folder)
        .stdout(end.try_clone()?)
        .stderr(end)
        .spawn()?;
    let mut lines = Vec::new();
    for line in BufReader::new(printed).split(b'\n') {
        let line = String::from_utf8_lossy(&line?).into_owned();
        progress.read(&line);
        lines.push(line);
    }
    Ok((running.wait()?, lines))
}

/// Cargo shows the message, and fails the build once the script has ended.
fn fail(message: &[String]) -> ! {
    for line in message {
        println!("cargo::error={line}");
    }
    exit(0)
}

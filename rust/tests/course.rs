//! The course: every answer on its pages is what the command answers now, and every picture what it draws.
//!
//! With HURKEZTOR_COURSE=write in the environment, answers and pictures are written anew.

use std::fs;
use std::path::{Path, PathBuf};
use std::process::{Command, Output};

fn root() -> PathBuf {
    Path::new(env!("CARGO_MANIFEST_DIR"))
        .parent()
        .expect("the repository")
        .to_path_buf()
}

/// The files of the course with this ending, as paths from the root.
fn files(ending: &str) -> Vec<String> {
    let mut found = Vec::new();
    let course = root().join("course");
    let folders = fs::read_dir(&course)
        .expect("the course")
        .map(|entry| entry.expect("an entry").path());
    for folder in folders.filter(|path| path.is_dir()).chain([course.clone()]) {
        for entry in fs::read_dir(&folder).expect("a folder") {
            let path = entry.expect("an entry").path();
            if path.extension().is_some_and(|extension| extension == ending) {
                found.push(path.strip_prefix(root()).expect("in the root").to_str().expect("ASCII").to_string());
            }
        }
    }
    found.sort();
    assert!(found.len() > 10, "{ending}: {found:?}");
    found
}

fn read(path: &str) -> String {
    fs::read_to_string(root().join(path)).unwrap_or_else(|error| panic!("{path}: {error}"))
}

fn hurkeztor(words: &[&str]) -> Output {
    Command::new(env!("CARGO_BIN_EXE_hurkeztor"))
        .args(words)
        .current_dir(root())
        .output()
        .expect("the command runs")
}

/// What a line of a page prints: `hurkeztor ...` or `cat FILE`.
fn printed(line: &str) -> String {
    let words: Vec<&str> = line.split(' ').collect();
    match words.as_slice() {
        ["hurkeztor", words @ ..] => {
            let output = hurkeztor(words);
            assert_ne!(output.status.code(), Some(2), "{line}");
            String::from_utf8([output.stdout, output.stderr].concat()).expect("a text")
        }
        ["cat", file] => read(file),
        _ => panic!("neither hurkeztor nor cat: {line}"),
    }
}

fn answer(ticket: &str) -> String {
    printed(&format!("hurkeztor judge {ticket}"))
        .lines()
        .next()
        .expect("an answer")
        .to_string()
}

/// The page with all its answers as they are now.
fn renewed(page: &str) -> String {
    let mut out = String::new();
    let mut console = false;
    for line in page.lines() {
        if line.starts_with("```") {
            console = line == "```console";
        }
        match line.strip_prefix("$ ") {
            Some(command) if console => out.push_str(&format!("{line}\n{}", printed(command))),
            _ if console && line != "```console" => {}
            _ => out.push_str(&format!("{}\n", renewed_row(line))),
        }
    }
    out
}

/// A row of the index that names a ticket: its third cell is the answer.
fn renewed_row(line: &str) -> String {
    let cells: Vec<&str> = line.split('|').collect();
    match cells.as_slice() {
        ["", page, ticket, _, lesson, ""] if ticket.contains(".ticket") => {
            let path = format!("course/{}", ticket.trim().trim_matches('`'));
            format!("|{page}|{ticket}| {} |{lesson}|", answer(&path))
        }
        _ => line.to_string(),
    }
}

fn writing() -> bool {
    std::env::var_os("HURKEZTOR_COURSE").is_some_and(|word| word == "write")
}

/// Compares a file with what it should hold, or writes it.
fn hold(path: &str, expected: &str) {
    if writing() {
        fs::write(root().join(path), expected).unwrap_or_else(|error| panic!("{path}: {error}"));
    } else {
        assert!(read(path) == expected, "{path} should be:\n{expected}");
    }
}

#[test]
fn answers_are_those_of_now() {
    for page in files("md") {
        hold(&page, &renewed(&read(&page)));
    }
}

#[test]
fn pictures_are_those_of_now() {
    for ticket in files("ticket") {
        let drawn = hurkeztor(&["draw", &ticket]);
        let picture = ticket.replace(".ticket", ".svg");
        if drawn.stdout.is_empty() {
            assert!(!root().join(&picture).exists(), "{ticket} has no picture");
        } else {
            hold(&picture, std::str::from_utf8(&drawn.stdout).expect("a text"));
        }
    }
}

#[test]
fn pages_name_every_ticket_and_picture() {
    if writing() {
        return;
    }
    let index = read("course/README.md");
    for ticket in files("ticket") {
        let within = ticket.strip_prefix("course/").expect("in the course");
        let (folder, name) = within.split_once('/').expect("in a folder");
        let page = read(&format!("course/{folder}/README.md"));
        assert!(
            index.contains(&format!("| `{within}` | {} |", answer(&ticket))),
            "{ticket} in the index"
        );
        assert!(
            page.contains(&format!("$ hurkeztor judge {ticket}\n")) || page.contains(&format!(" {ticket}\n")),
            "{ticket} on its page"
        );
        let picture = name.replace(".ticket", ".svg");
        let drawn = root().join("course").join(folder).join(&picture).exists();
        assert_eq!(drawn, page.contains(&format!("]({picture})")), "{picture} on its page");
    }
}

//! The command `hurkeztor`: judges tickets, writes and shows new nests, lists directions, draws. Every answer is that of a proved entry.

#![deny(unsafe_code)]

mod command;

use std::process::ExitCode;

fn main() -> ExitCode {
    let words: Vec<String> = std::env::args_os()
        .skip(1)
        .map(|word| word.to_string_lossy().into_owned())
        .collect();
    command::main(&words)
}

//! The verbs of the command and how they end.

mod answering;
mod drawing;
mod explaining;
mod help;
mod input;
mod listing;
mod options;
mod output;
mod running;
mod showing;
mod writing;

use options::Options;
use std::process::ExitCode;

/// How a verb that was used well ends.
#[derive(Clone, Copy, PartialEq, Eq)]
pub enum Outcome {
    Accepted,
    Refused,
}

/// Why a verb could not be carried out: exit status 2.
pub enum Failure {
    /// The words of the command line are wrong.
    Usage(String),
    /// What was to be read or written is no good; the message stands by itself.
    Input(String),
    /// Nobody reads the output any more.
    Closed,
}

pub type Ended = Result<Outcome, Failure>;

/// A verb: its name, the flags that it takes, whether numbers stand before the file, and what it does.
pub struct Verb {
    pub name: &'static str,
    pub flags: &'static [&'static str],
    pub numbers: usize,
    pub act: fn(&Options) -> Ended,
}

const VERBS: [Verb; 10] = [
    Verb {
        name: "judge",
        flags: &["--as"],
        numbers: 0,
        act: answering::judge,
    },
    Verb {
        name: "why",
        flags: &["--as", "--most"],
        numbers: 0,
        act: explaining::why,
    },
    Verb {
        name: "write",
        flags: &["--as", "-o", "--as-text", "--as-words", "--as-binary"],
        numbers: 0,
        act: writing::write,
    },
    Verb {
        name: "list",
        flags: &["--as", "--explain"],
        numbers: 0,
        act: listing::list,
    },
    Verb {
        name: "quick",
        flags: &["--as"],
        numbers: 2,
        act: answering::quick,
    },
    Verb {
        name: "run",
        flags: &["--as", "--store", "--fill", "--before"],
        numbers: 0,
        act: running::run,
    },
    Verb {
        name: "show",
        flags: &["--as"],
        numbers: 0,
        act: showing::show,
    },
    Verb {
        name: "pack",
        flags: &["--as", "-o"],
        numbers: 0,
        act: writing::pack,
    },
    Verb {
        name: "unpack",
        flags: &["--as", "-o", "--as-text", "--as-words"],
        numbers: 0,
        act: writing::unpack,
    },
    Verb {
        name: "draw",
        flags: &["--as", "-o"],
        numbers: 0,
        act: drawing::draw,
    },
];

/// Carries out a command line.
pub fn main(words: &[String]) -> ExitCode {
    let verb = words.first().map(String::as_str);
    let ended = match verb {
        None => Err(Failure::Usage("a verb is missing".into())),
        Some("--help" | "-h" | "help") => helped(words.get(1)),
        Some("--version" | "-V") => output::print(concat!("hurkeztor ", env!("CARGO_PKG_VERSION"), "\n")),
        Some(name) => match VERBS.iter().find(|verb| verb.name == name) {
            None => Err(Failure::Usage(format!("'{name}' is no verb"))),
            Some(verb) => perform(verb, &words[1..]),
        },
    };
    match ended {
        Ok(Outcome::Accepted) => ExitCode::SUCCESS,
        Ok(Outcome::Refused) => ExitCode::from(1),
        Err(failure) => {
            report(verb.unwrap_or(""), failure);
            ExitCode::from(2)
        }
    }
}

fn perform(verb: &Verb, words: &[String]) -> Ended {
    if words.iter().any(|word| word == "--help" || word == "-h") {
        return output::print(help::of(verb.name));
    }
    (verb.act)(&Options::read(verb, words)?)
}

fn helped(verb: Option<&String>) -> Ended {
    match verb.map(String::as_str) {
        None => output::print(help::GENERAL),
        Some(name) if VERBS.iter().any(|verb| verb.name == name) => output::print(help::of(name)),
        Some(name) => Err(Failure::Usage(format!("'{name}' is no verb"))),
    }
}

fn report(verb: &str, failure: Failure) {
    match failure {
        Failure::Usage(message) if VERBS.iter().any(|known| known.name == verb) => {
            output::complain(&format!("hurkeztor {verb}: {message}\nSee 'hurkeztor {verb} --help'.\n"));
        }
        Failure::Usage(message) => output::complain(&format!("hurkeztor: {message}\nSee 'hurkeztor --help'.\n")),
        Failure::Input(message) => output::complain(&message),
        Failure::Closed => {}
    }
}

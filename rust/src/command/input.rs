//! A ticket in any form, read from a file or standard input.

use super::Failure;
use super::options::Options;
use super::output::complain;
use hurkeztor::text::{self, Names, ParseError, Places, excerpt};
use hurkeztor::{Nest, Ticket};
use std::io::{IsTerminal, Read};

/// What some editors put before a text.
const BYTE_ORDER_MARK: &[u8] = "\u{feff}".as_bytes();

/// The forms of a ticket.
#[derive(Clone, Copy, PartialEq, Eq)]
pub enum Form {
    Binary,
    Words,
    Text,
}

/// A ticket and what is known of where it came from.
pub struct Input {
    /// The file's name, for messages.
    pub name: String,
    pub form: Form,
    pub ticket: Ticket,
    /// The text, and where the parts of the ticket stand in it.
    pub source: Option<(String, Places)>,
    /// The names that the text gives.
    names: Option<Names>,
}

impl Input {
    /// Reads the ticket that the options name.
    pub fn read(options: &Options) -> Result<Input, Failure> {
        let (name, bytes) = bytes_of(options.file.as_deref())?;
        let form = options.form.unwrap_or_else(|| find_form(&bytes));
        if form == Form::Binary {
            return Ok(Input {
                name,
                form,
                ticket: Ticket::from_bytes(bytes),
                source: None,
                names: None,
            });
        }
        let bytes = bytes.strip_prefix(BYTE_ORDER_MARK).unwrap_or(&bytes).to_vec();
        let source = String::from_utf8(bytes).map_err(|_| Failure::Input(format!("{name}: not a text: it is not in UTF-8\n")))?;
        let wrong = |error: ParseError| Failure::Input(format!("{name}:{error}\n{}", excerpt(&source, error.span)));
        if form == Form::Words {
            let (words, places) = text::parse_words(&source).map_err(wrong)?;
            return Ok(Input {
                name,
                form,
                ticket: Ticket::from_words(&words),
                source: Some((source, places)),
                names: None,
            });
        }
        let parsed = text::parse(&source).map_err(wrong)?;
        let ticket = Ticket::from_nest(&parsed.nest).map_err(|error| Failure::Input(format!("{name}: {error}\n")))?;
        Ok(Input {
            name,
            form,
            ticket,
            source: Some((source, parsed.places)),
            names: Some(parsed.names),
        })
    }

    /// The names that the text gives, or the usual ones.
    pub fn names(&self, nest: &Nest) -> Names {
        self.names.clone().unwrap_or_else(|| Names::of(nest))
    }
}

/// A file's bytes, or those of standard input, with the name for messages.
pub fn bytes_of(file: Option<&str>) -> Result<(String, Vec<u8>), Failure> {
    let (name, read) = match file {
        None | Some("-") => {
            if std::io::stdin().is_terminal() {
                complain("reading from the terminal; Ctrl-D ends the input\n");
            }
            let mut bytes = Vec::new();
            ("<standard input>", std::io::stdin().lock().read_to_end(&mut bytes).map(|_| bytes))
        }
        Some(path) => (path, std::fs::read(path)),
    };
    match read {
        Ok(bytes) => Ok((name.to_string(), bytes)),
        Err(error) => Err(Failure::Input(format!("{name}: cannot be read: {error}\n"))),
    }
}

/// A binary ticket begins with a byte below 7, which no text has. Typed words begin with a number, the text form with a name.
fn find_form(bytes: &[u8]) -> Form {
    let control = |byte: &u8| *byte < b' ' && !b"\t\n\r\x0c".contains(byte);
    let Ok(text) = std::str::from_utf8(bytes) else {
        return Form::Binary;
    };
    if bytes.is_empty() || bytes.iter().any(control) {
        return Form::Binary;
    }
    let code = text
        .trim_start_matches('\u{feff}')
        .lines()
        .map(|line| line.split('#').next().unwrap_or("").trim_start());
    match code.flat_map(str::chars).next() {
        Some(c) if c.is_ascii_digit() || c == '-' || c == '−' => Form::Words,
        _ => Form::Text,
    }
}

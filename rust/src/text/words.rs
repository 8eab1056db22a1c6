//! Decimal words as text.

use super::{ParseError, Places, Span};
use crate::words::decode;

/// Reads decimal words, parted by blanks; `#` starts a comment. Also answers where the words and the parts of the ticket stand.
///
/// # Errors
///
/// Where something else than a whole number of 16 bits stands.
pub fn parse_words(source: &str) -> Result<(Vec<i16>, Places), ParseError> {
    let mut words = Vec::new();
    let mut places = Places::default();
    for (number, text) in source.lines().enumerate() {
        for (typed, span) in blank_parted(number + 1, text) {
            let word = typed.replace('−', "-").parse().map_err(|_| {
                let message = format!("expected a whole number from -32768 to 32767, found '{}'", typed.escape_debug());
                ParseError::new(span, message)
            })?;
            words.push(word);
            places.words.push(span);
        }
    }
    if let Ok((_, offsets)) = decode(&words) {
        let at = |offsets: &[usize]| offsets.iter().map(|&offset| places.words[offset]).collect();
        let (loops, statements, steps) = (at(&offsets.loops), at(&offsets.statements), at(&offsets.steps));
        places = Places {
            loops,
            statements,
            steps,
            ..places
        };
    }
    Ok((words, places))
}

fn blank_parted(line: usize, text: &str) -> Vec<(String, Span)> {
    let mut found: Vec<(String, Span)> = Vec::new();
    let mut open = false;
    for (at, c) in text.chars().take_while(|&c| c != '#').enumerate() {
        if c.is_whitespace() {
            open = false;
        } else if open {
            let (typed, span) = found.last_mut().expect("a word is open");
            typed.push(c);
            span.length += 1;
        } else {
            found.push((
                c.to_string(),
                Span {
                    line,
                    column: at + 1,
                    length: 1,
                },
            ));
            open = true;
        }
    }
    found
}

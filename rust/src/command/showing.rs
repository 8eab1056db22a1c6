//! `show`: a ticket and its new nest side by side.

use super::input::Input;
use super::options::Options;
use super::output::{print, refused, with_progress};
use super::{Ended, Outcome};
use hurkeztor::text;
use hurkeztor::{Nest, Refusal};

/// The columns in which a refusal stands in place of the new nest.
const REFUSAL_WIDTH: usize = 48;

pub fn show(options: &Options) -> Ended {
    let input = Input::read(options)?;
    let answer = with_progress("judging", || (hurkeztor::judge(&input.ticket), hurkeztor::write(&input.ticket)));
    let nest = match (input.ticket.nest(), &answer.0) {
        (Ok(nest), _) => nest,
        (Err(_), Err(refusal)) => return refused(&input, refusal),
        (Err(_), Ok(_)) => Nest::default(),
    };
    let names = input.names(&nest);
    let left = text::print(&nest, &names);
    match answer {
        (Ok(judgement), Ok(new)) => {
            let right = text::print(&new.nest().unwrap_or_default(), &names.after(&nest.steps));
            print(&format!("{judgement}\n\n{}", beside(&left, None, &right)))
        }
        (Err(refusal), _) | (_, Err(refusal)) => {
            let marked = marked_line(&left, &refusal);
            let right = wrapped(&format!("none: {refusal}. {}.", capital(refusal.meaning())));
            print(&format!("{refusal}\n\n{}", beside(&left, marked, &right)))?;
            Ok(Outcome::Refused)
        }
    }
}

/// The line of the printed ticket where the refusal's place is.
fn marked_line(printed: &str, refusal: &Refusal) -> Option<usize> {
    let places = text::parse(printed).ok()?.places;
    places.find(refusal).map(|span| span.line)
}

/// Two texts as columns; a line of the left one may be marked.
fn beside(left: &str, marked: Option<usize>, right: &str) -> String {
    let left: Vec<&str> = ["ticket", ""].into_iter().chain(left.lines()).collect();
    let right: Vec<&str> = ["new nest", ""].into_iter().chain(right.lines()).collect();
    let width = left.iter().map(|line| line.chars().count()).max().unwrap_or(0);
    let mut out = String::new();
    for number in 0..left.len().max(right.len()) {
        let mark = if marked.is_some_and(|line| line + 1 == number) { '>' } else { ' ' };
        let (l, r) = (left.get(number).unwrap_or(&""), right.get(number).unwrap_or(&""));
        out.push_str(format!("{mark} {l:width$}  |  {r}").trim_end());
        out.push('\n');
    }
    out
}

fn capital(text: &str) -> String {
    let mut chars = text.chars();
    chars
        .next()
        .map_or(String::new(), |first| first.to_uppercase().chain(chars).collect())
}

fn wrapped(text: &str) -> String {
    let mut out = String::new();
    let mut column = 0;
    for word in text.split(' ') {
        let length = word.chars().count();
        if column > 0 && column + 1 + length > REFUSAL_WIDTH {
            out.push('\n');
            column = 0;
        } else if column > 0 {
            out.push(' ');
            column += 1;
        }
        out.push_str(word);
        column += length;
    }
    out
}

//! `list`.

use super::Ended;
use super::input::Input;
use super::options::Options;
use super::output::{print, refused, with_progress};
use hurkeztor::{Direction, Kind, Sign};

pub fn list(options: &Options) -> Ended {
    let input = Input::read(options)?;
    let listing = match with_progress("listing", || hurkeztor::list(&input.ticket)) {
        Ok(listing) => listing,
        Err(refusal) => return refused(&input, &refusal),
    };
    if !options.explain {
        return print(&listing.to_string());
    }
    let nest = input.ticket.nest().unwrap_or_default();
    let names = input.names(&nest);
    let lines = listing.directions.len();
    let mut out = listing.to_string().lines().next().unwrap_or("").to_string();
    out.push_str(&format!(
        "\n    {}, {}, {}\n",
        several(listing.loops, "loop"),
        several(listing.iterations as usize, "iteration"),
        several(lines, "line")
    ));
    for direction in &listing.directions {
        out.push_str(&format!("{direction}\n    {}\n", sentence(direction, &names.indices)));
    }
    print(&out)
}

pub fn several(count: usize, noun: &str) -> String {
    if count == 1 {
        format!("1 {noun}")
    } else {
        format!("{count} {noun}s")
    }
}

/// As in: statement 1 writes an element, and statement 2 reads it later: at a greater i and the same j.
fn sentence(direction: &Direction, indices: &[String]) -> String {
    let (first, second) = match direction.kind {
        Kind::Flow => ("writes", "reads it"),
        Kind::Anti => ("reads", "writes it"),
        Kind::Output => ("writes", "writes it again"),
    };
    let (source, sink) = (direction.source, direction.sink);
    let whose = if source == sink {
        "the same statement".to_string()
    } else {
        format!("statement {sink}")
    };
    format!(
        "statement {source} {first} an element, and {whose} {second} later: {}",
        distance(&direction.vector, indices)
    )
}

fn distance(vector: &[Sign], indices: &[String]) -> String {
    if vector.iter().all(|sign| *sign == Sign::Equal) {
        return "in the same iteration".into();
    }
    let compared = vector.iter().zip(indices).map(|(sign, index)| match sign {
        Sign::Less => format!("a greater {index}"),
        Sign::Equal => format!("the same {index}"),
        Sign::Greater => format!("a smaller {index}"),
    });
    let compared: Vec<String> = compared.collect();
    format!("at {}", joined(&compared))
}

fn joined(parts: &[String]) -> String {
    match parts {
        [] => String::new(),
        [one] => one.clone(),
        [front @ .., last] => format!("{} and {last}", front.join(", ")),
    }
}

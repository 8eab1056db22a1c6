//! A nest in the text form.

use super::Names;
use crate::listing::Kind;
use crate::nest::{Access, Limit, Nest, Rule, Statement};
use crate::reason::{Pair, listed};
use std::fmt::Write;

/// The text form of a nest under the given names; indices or arrays that have none get numbered ones. Parsed again, it is the same nest.
pub fn print(nest: &Nest, names: &Names) -> String {
    let names = complete(nest, names);
    let mut out = String::new();
    for (array, name) in nest.arrays.iter().zip(&names.arrays) {
        let extents: Vec<String> = array.extents.iter().map(i16::to_string).collect();
        line(&mut out, 0, &format!("array {name}({})", extents.join(", ")));
    }
    if !nest.arrays.is_empty() && !nest.loops.is_empty() {
        out.push('\n');
    }
    for (depth, l) in nest.loops.iter().enumerate() {
        let outside = &names.indices[..depth];
        let (lower, upper) = (side("max", &l.lower, outside), side("min", &l.upper, outside));
        line(&mut out, depth, &format!("for {} = {lower} to {upper}", names.indices[depth]));
    }
    for statement in &nest.statements {
        line(&mut out, nest.loops.len(), &print_statement(statement, &names));
    }
    if !nest.steps.is_empty() {
        out.push('\n');
    }
    for step in &nest.steps {
        line(&mut out, 0, &step.to_string());
    }
    out
}

fn complete(nest: &Nest, names: &Names) -> Names {
    let fill = |given: &[String], first: char, count: usize| {
        let mut all: Vec<String> = given.iter().take(count).cloned().collect();
        let mut numbered = (1..).map(|n: usize| format!("{first}{n}"));
        while all.len() < count {
            all.extend(numbered.find(|name| !given.contains(name)));
        }
        all
    };
    Names {
        indices: fill(&names.indices, 'i', nest.loops.len()),
        arrays: fill(&names.arrays, 'A', nest.arrays.len()),
    }
}

fn line(out: &mut String, depth: usize, text: &str) {
    out.push_str(&"  ".repeat(depth));
    out.push_str(text);
    out.push('\n');
}

fn side(together: &str, limits: &[Limit], outside: &[String]) -> String {
    let printed: Vec<String> = limits.iter().map(|limit| print_limit(limit, outside)).collect();
    match printed.as_slice() {
        [one] => one.clone(),
        several => format!("{together}({})", several.join(", ")),
    }
}

fn print_limit(limit: &Limit, outside: &[String]) -> String {
    let (sum, terms) = print_sum(limit.constant, &limit.coefficients, outside);
    match limit.multiplier {
        1 => sum,
        p if terms > 1 => format!("({sum})/{p}"),
        p => format!("{sum}/{p}"),
    }
}

/// The expression, and how many terms it has.
fn print_sum(constant: i16, coefficients: &[i16], indices: &[String]) -> (String, usize) {
    let mut out = String::new();
    let mut terms = 0;
    for (&coefficient, index) in coefficients.iter().zip(indices).filter(|(c, _)| **c != 0) {
        let plus = if terms > 0 && coefficient > 0 { "+" } else { "" };
        let printed = match coefficient {
            1 => format!("{plus}{index}"),
            -1 => format!("-{index}"),
            c => format!("{plus}{c}*{index}"),
        };
        out.push_str(&printed);
        terms += 1;
    }
    if constant != 0 || terms == 0 {
        let plus = if terms > 0 && constant > 0 { "+" } else { "" };
        write!(out, "{plus}{constant}").expect("a string takes all");
        terms += 1;
    }
    (out, terms)
}

/// An access, as in `A(i+j, 2)`.
pub fn print_access(access: &Access, names: &Names) -> String {
    let subscripts: Vec<String> = access
        .subscripts
        .iter()
        .map(|subscript| print_sum(subscript.constant, &subscript.coefficients, &names.indices).0)
        .collect();
    format!("{}{}", array_name(access.array, names), listed(&subscripts))
}

fn array_name(array: usize, names: &Names) -> &str {
    let name = array.checked_sub(1).and_then(|n| names.arrays.get(n));
    name.map_or("?", String::as_str)
}

/// A pair that trades places and its element, as in `A(1): written at (0, 1), then at (1, 0)`; the statements too where the body has several.
///
/// # Panics
///
/// Where the nest is not that of the pair's ticket.
pub fn print_pair(pair: &Pair, nest: &Nest, names: &Names) -> String {
    let (array, subscripts) = pair.element(nest);
    let (first, second) = match pair.kind {
        Kind::Flow => ("written", " read"),
        Kind::Anti => ("read", " written"),
        Kind::Output => ("written", ""),
    };
    let by = |statement: usize| match nest.statements.len() {
        1 => String::new(),
        _ => format!(" by statement {statement}"),
    };
    format!(
        "{}{}: {first}{} at {}, then{second}{} at {}",
        array_name(array, names),
        listed(&subscripts),
        by(pair.source_statement),
        listed(&pair.source),
        by(pair.sink_statement),
        listed(&pair.sink)
    )
}

fn print_statement(statement: &Statement, names: &Names) -> String {
    let written = print_access(&statement.write, names);
    let mut parts: Vec<String> = statement.reads.iter().map(|read| print_access(read, names)).collect();
    let constant = statement.constant;
    let right = match statement.rule {
        Rule::First if constant == 0 && parts.len() == 1 => parts.remove(0),
        Rule::Sum => print_addition(parts, constant),
        rule => {
            if constant != 0 || rule == Rule::Largest {
                parts.push(constant.to_string());
            }
            let word = match rule {
                Rule::Largest => "max",
                Rule::First => "first",
                _ => "opaque",
            };
            format!("{word}({})", parts.join(", "))
        }
    };
    format!("{written} = {right}")
}

fn print_addition(mut parts: Vec<String>, constant: i16) -> String {
    if constant < 0 && !parts.is_empty() {
        return format!("{} - {}", parts.join(" + "), i32::from(constant).abs());
    }
    if constant != 0 || parts.len() < 2 {
        parts.push(constant.to_string());
    }
    parts.join(" + ")
}

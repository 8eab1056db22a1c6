//! Affine expressions and limits.

use super::tokens::{Line, Token, in_word};
use super::{ParseError, Span};
use crate::nest::{Limit, Subscript};

/// An affine expression with the place of its constant and of each coefficient.
pub struct Sum {
    pub constant: i16,
    pub coefficients: Vec<i16>,
    /// The constant's place, then each coefficient's; the whole expression where the text leaves a number out.
    pub spans: Vec<Span>,
    terms: usize,
}

struct Adding<'a> {
    indices: &'a [String],
    /// The constant, then the coefficients.
    numbers: Vec<i32>,
    spans: Vec<Option<Span>>,
    terms: usize,
}

/// Reads an expression of the given indices.
pub fn sum(line: &mut Line, indices: &[String]) -> Result<Sum, ParseError> {
    let start = line.here();
    let places = indices.len() + 1;
    let mut adding = Adding {
        indices,
        numbers: vec![0; places],
        spans: vec![None; places],
        terms: 0,
    };
    let mut negative = sign(line);
    loop {
        adding.term(line, negative)?;
        if !matches!(line.peek(), Some(Token::Symbol('+' | '-'))) {
            break;
        }
        negative = sign(line);
    }
    let whole = line.since(start);
    let spans: Vec<Span> = adding.spans.iter().map(|span| span.unwrap_or(whole)).collect();
    let mut words = adding.numbers.iter().zip(&spans).map(|(&number, &span)| in_word(number, span));
    let constant = words.next().unwrap_or(Ok(0))?;
    Ok(Sum {
        constant,
        coefficients: words.collect::<Result<_, _>>()?,
        spans,
        terms: adding.terms,
    })
}

fn sign(line: &mut Line) -> bool {
    !line.accept('+') && line.accept('-')
}

impl Adding<'_> {
    /// One of `5`, `i`, `2*i`, `2i` and `i*2`.
    fn term(&mut self, line: &mut Line, negative: bool) -> Result<(), ParseError> {
        let start = line.here();
        let mut number = 1;
        let mut index = None;
        match line.peek() {
            Some(Token::Number(_)) => {
                number = line.number("a number")?.0;
                if line.accept('*') || matches!(line.peek(), Some(Token::Name(name)) if self.indices.contains(name)) {
                    index = Some(self.index(line)?);
                }
            }
            Some(Token::Name(_)) => {
                index = Some(self.index(line)?);
                if line.accept('*') {
                    number = line.number("a number")?.0;
                }
            }
            _ => return line.expected("a number or an index"),
        }
        let place = index.map_or(0, |index| index + 1);
        let number = if negative { -number } else { number };
        self.numbers[place] = self.numbers[place].saturating_add(number);
        self.spans[place].get_or_insert(line.since(start));
        self.terms += 1;
        Ok(())
    }

    fn index(&self, line: &mut Line) -> Result<usize, ParseError> {
        let span = line.here();
        let (name, _) = line.name("an index")?;
        let found = self.indices.iter().position(|index| *index == name);
        found.ok_or_else(|| {
            let known = match self.indices {
                [] => "no index is known".to_string(),
                indices => format!("known are {}", indices.join(", ")),
            };
            ParseError::new(span, format!("'{name}' is no index here: {known}"))
        })
    }
}

impl Sum {
    pub fn subscript(self, spans: &mut Vec<Span>) -> Subscript {
        spans.extend(self.spans);
        Subscript {
            constant: self.constant,
            coefficients: self.coefficients,
        }
    }
}

/// Reads one side of a loop: one limit, or several in `max( )` or `min( )`. Adds the place of each word.
pub fn side(line: &mut Line, together: &str, outside: &[String], spans: &mut Vec<Span>) -> Result<Vec<Limit>, ParseError> {
    let start = line.here();
    let other = if together == "max" { "min" } else { "max" };
    if matches!(line.peek(), Some(Token::Name(name)) if name == other) {
        return line.error(format!(
            "a lower side takes the largest, max( ), an upper one the smallest, min( ); here it is {together}( )"
        ));
    }
    let mut words = Vec::new();
    let mut limits = Vec::new();
    if !line.accept_word(together) {
        limits.push(limit(line, outside, &mut words)?);
        spans.push(line.since(start));
        spans.extend(words);
        return Ok(limits);
    }
    spans.push(line.since(start));
    line.expect('(')?;
    if !line.accept(')') {
        loop {
            limits.push(limit(line, outside, &mut words)?);
            if !line.accept(',') {
                break;
            }
        }
        line.expect(')')?;
    }
    spans.extend(words);
    Ok(limits)
}

fn limit(line: &mut Line, outside: &[String], spans: &mut Vec<Span>) -> Result<Limit, ParseError> {
    let start = line.here();
    let parenthesis = line.accept('(');
    let sum = sum(line, outside)?;
    if parenthesis {
        line.expect(')')?;
    }
    let mut multiplier = (1, line.since(start));
    if line.peek() == Some(&Token::Symbol('/')) {
        if sum.terms > 1 && !parenthesis {
            return line.error("a limit is divided as a whole: put the sum in parentheses, as in (2*i+1)/3");
        }
        line.expect('/')?;
        multiplier = line.word("a whole number")?;
    }
    spans.push(multiplier.1);
    spans.extend(sum.spans);
    Ok(Limit {
        multiplier: multiplier.0,
        constant: sum.constant,
        coefficients: sum.coefficients,
    })
}

//! Statements.

use super::expression::sum;
use super::tokens::{Line, Token, in_word};
use super::{Names, ParseError, Span};
use crate::nest::{Access, Array, Rule, Statement};

/// What a statement may name.
pub struct Scope<'a> {
    pub names: &'a Names,
    pub arrays: &'a [Array],
}

struct Right {
    rule: Rule,
    rule_span: Span,
    reads: Vec<Access>,
    read_spans: Vec<Span>,
    constant: Option<(i16, Span)>,
}

impl Scope<'_> {
    /// Reads a statement. Adds the place of each word.
    pub fn statement(&self, line: &mut Line, spans: &mut Vec<Span>) -> Result<Statement, ParseError> {
        let mut write_spans = Vec::new();
        let write = self.access(line, &mut write_spans)?;
        line.expect('=')?;
        let start = line.here();
        let mut right = Right {
            rule: Rule::Sum,
            rule_span: start,
            reads: Vec::new(),
            read_spans: Vec::new(),
            constant: None,
        };
        let called = match line.peek() {
            Some(Token::Name(name)) => rule_of(name),
            _ => None,
        };
        match called {
            Some(rule) => {
                right.rule = rule;
                self.call(line, &mut right)?;
            }
            None => self.addition(line, &mut right)?,
        }
        let whole = line.since(start);
        let (constant, constant_span) = right.constant.unwrap_or((0, whole));
        spans.extend([right.rule_span, constant_span]);
        spans.extend(write_spans);
        spans.push(whole);
        spans.extend(right.read_spans);
        Ok(Statement {
            rule: right.rule,
            constant,
            write,
            reads: right.reads,
        })
    }

    /// `max( )`, `first( )` or `opaque( )` of reads, with at most one constant.
    fn call(&self, line: &mut Line, right: &mut Right) -> Result<(), ParseError> {
        let Some(Token::Name(word)) = line.peek().cloned() else {
            return line.expected("a rule");
        };
        line.accept_word(&word);
        line.expect('(')?;
        if line.accept(')') {
            return Ok(());
        }
        loop {
            if matches!(line.peek(), Some(Token::Name(_))) {
                right.reads.push(self.access(line, &mut right.read_spans)?);
            } else if right.constant.is_none() {
                right.constant = Some(line.word("an access or a number")?);
            } else {
                return line.expected("an access: a statement has one constant");
            }
            if !line.accept(',') {
                return line.expect(')');
            }
        }
    }

    /// A sum of reads and numbers; one read alone is the first read.
    fn addition(&self, line: &mut Line, right: &mut Right) -> Result<(), ParseError> {
        let mut total = 0i32;
        let mut place = None;
        let mut negative = line.accept('-');
        loop {
            let start = line.here();
            if !matches!(line.peek(), Some(Token::Name(_))) {
                let (number, _) = line.number("an access or a number")?;
                total = total.saturating_add(if negative { -number } else { number });
                place.get_or_insert(line.since(start));
            } else if negative {
                return line.error("a read cannot be taken away: rules are the sum, max( ), first( ) and opaque( )");
            } else {
                right.reads.push(self.access(line, &mut right.read_spans)?);
            }
            negative = match line.peek() {
                Some(Token::Symbol('+')) => !line.accept('+'),
                Some(Token::Symbol('-')) => line.accept('-'),
                _ => break,
            };
        }
        if let Some(span) = place {
            right.constant = Some((in_word(total, span)?, span));
        } else if right.reads.len() == 1 {
            right.rule = Rule::First;
        }
        Ok(())
    }

    fn access(&self, line: &mut Line, spans: &mut Vec<Span>) -> Result<Access, ParseError> {
        let (name, span) = line.name("an array")?;
        let Some(place) = self.names.arrays.iter().position(|array| *array == name) else {
            let message = format!("'{name}' is no array: declare it above the loops, as in 'array {name}(10)'");
            return Err(ParseError::new(span, message));
        };
        spans.push(span);
        line.expect('(')?;
        let mut subscripts = Vec::new();
        if line.peek() != Some(&Token::Symbol(')')) {
            loop {
                subscripts.push(sum(line, &self.names.indices)?.subscript(spans));
                if !line.accept(',') {
                    break;
                }
            }
        }
        line.expect(')')?;
        let (given, needed) = (subscripts.len(), self.arrays[place].extents.len());
        if given != needed {
            let message = format!("array {name} has {needed} dimensions, and here {given} subscripts");
            return Err(ParseError::new(line.since(span), message));
        }
        Ok(Access {
            array: place + 1,
            subscripts,
        })
    }
}

fn rule_of(word: &str) -> Option<Rule> {
    match word {
        "max" => Some(Rule::Largest),
        "first" => Some(Rule::First),
        "opaque" => Some(Rule::Opaque),
        _ => None,
    }
}

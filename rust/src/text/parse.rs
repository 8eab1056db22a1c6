//! The lines of the text form.

use super::expression::side;
use super::statement::Scope;
use super::tokens::{Line, Token};
use super::{Names, ParseError, Parsed, Places, Span};
use crate::nest::{Array, Loop, Nest, Step};

/// More loops than any nest has; each makes every limit and subscript longer.
const LOOPS: usize = 64;

/// Reads the text form of a nest.
///
/// # Errors
///
/// Where the text cannot be a ticket: bad syntax, an unknown name, a number beyond 16 bits. Numbers out of their ranges are left to the
/// entries. A nest that was read has words.
///
/// ```
/// use hurkeztor::text;
/// let error = text::parse("array A(4)\nfor i = 0 to 3\n  A(x) = 1\n").unwrap_err();
/// assert_eq!(error.to_string(), "3:5: 'x' is no index here: known are i");
/// ```
pub fn parse(source: &str) -> Result<Parsed, ParseError> {
    let mut parser = Parser::default();
    for (number, text) in source.lines().enumerate() {
        let mut line = Line::split(number + 1, text)?;
        if !line.is_empty() {
            parser.line(&mut line)?;
            line.finish()?;
            parser.last = line.whole();
        }
    }
    let last = parser.last;
    let parsed = parser.finish();
    match parsed.nest.to_words() {
        Ok(_) => Ok(parsed),
        Err(error) => Err(ParseError::new(last, error.to_string())),
    }
}

/// What was read so far; for each section, the place of each of its words but its count.
struct Parser {
    nest: Nest,
    names: Names,
    places: Places,
    loop_words: Vec<Span>,
    array_words: Vec<Span>,
    first_array: Option<Span>,
    statement_words: Vec<Span>,
    step_words: Vec<Span>,
    last: Span,
}

impl Default for Parser {
    fn default() -> Parser {
        Parser {
            nest: Nest::default(),
            names: Names::default(),
            places: Places::default(),
            loop_words: Vec::new(),
            array_words: Vec::new(),
            first_array: None,
            statement_words: Vec::new(),
            step_words: Vec::new(),
            last: Span {
                line: 1,
                column: 1,
                length: 1,
            },
        }
    }
}

impl Parser {
    fn line(&mut self, line: &mut Line) -> Result<(), ParseError> {
        let word = match line.peek() {
            Some(Token::Name(name)) => name.clone(),
            _ => return line.expected("an array, a loop, a statement or a step"),
        };
        match word.as_str() {
            "array" => self.array(line),
            "for" => self.for_loop(line),
            "exchange" | "reverse" | "skew" | "section" | "move" => self.step(line, &word),
            _ if line.peek_after() != Some(&Token::Symbol('(')) => {
                line.expected("'array', 'for', a statement such as 'A(i) = B(i)', 'exchange', 'reverse', 'skew', 'section' or 'move'")
            }
            _ => self.statement(line),
        }
    }

    fn array(&mut self, line: &mut Line) -> Result<(), ParseError> {
        let whole = line.whole();
        if !self.nest.statements.is_empty() || !self.nest.steps.is_empty() {
            return line.error("arrays are declared above the loops");
        }
        line.expect_word("array")?;
        let (name, span) = line.name("an array's name")?;
        if self.names.arrays.contains(&name) {
            return Err(ParseError::new(span, format!("array {name} is declared twice")));
        }
        self.first_array.get_or_insert(whole);
        line.expect('(')?;
        self.array_words.push(span);
        let mut extents = Vec::new();
        if !line.accept(')') {
            loop {
                let (extent, span) = line.word("an extent")?;
                extents.push(extent);
                self.array_words.push(span);
                if !line.accept(',') {
                    break;
                }
            }
            line.expect(')')?;
        }
        self.names.arrays.push(name);
        self.nest.arrays.push(Array { extents });
        Ok(())
    }

    fn for_loop(&mut self, line: &mut Line) -> Result<(), ParseError> {
        if !self.nest.statements.is_empty() || !self.nest.steps.is_empty() {
            return line.error("every statement stands inside the innermost loop: no loop can follow one, or a step");
        }
        if self.nest.loops.len() == LOOPS {
            return line.error(format!("a text has at most {LOOPS} loops, and a ticket at most 4"));
        }
        let whole = line.whole();
        line.expect_word("for")?;
        let (name, span) = line.name("an index")?;
        if self.names.indices.contains(&name) {
            return Err(ParseError::new(span, format!("index {name} belongs to a loop outside this one")));
        }
        line.expect('=')?;
        let lower = side(line, "max", &self.names.indices, &mut self.loop_words)?;
        line.expect_word("to")?;
        let upper = side(line, "min", &self.names.indices, &mut self.loop_words)?;
        self.names.indices.push(name);
        self.nest.loops.push(Loop { lower, upper });
        self.places.loops.push(whole);
        Ok(())
    }

    fn statement(&mut self, line: &mut Line) -> Result<(), ParseError> {
        if !self.nest.steps.is_empty() {
            return line.error("steps follow the last statement");
        }
        let scope = Scope {
            names: &self.names,
            arrays: &self.nest.arrays,
        };
        let statement = scope.statement(line, &mut self.statement_words)?;
        self.nest.statements.push(statement);
        self.places.statements.push(line.whole());
        Ok(())
    }

    fn step(&mut self, line: &mut Line, kind: &str) -> Result<(), ParseError> {
        let start = line.here();
        line.accept_word(kind);
        let (a, a_span) = line.word("a loop's number")?;
        let (step, b_span, c_span) = match kind {
            "exchange" => {
                let (inner, span) = line.word("the number of the next loop")?;
                (Step::Exchange { outer: a, inner }, span, start)
            }
            "reverse" => (Step::Reverse { at: a }, start, start),
            "skew" => {
                let (inner, span) = line.word("the number of an inner loop")?;
                line.expect_word("by")?;
                let (by, by_span) = line.word("1 or -1")?;
                (Step::Skew { outer: a, inner, by }, span, by_span)
            }
            "section" => {
                line.expect_word("by")?;
                let (width, span) = line.word("a width")?;
                (Step::Section { at: a, width }, span, start)
            }
            _ => {
                line.expect_word("to")?;
                let (to, span) = line.word("the loop's new place")?;
                (Step::Move { from: a, to }, span, start)
            }
        };
        self.step_words.extend([start, a_span, b_span, c_span]);
        self.nest.steps.push(step);
        self.places.steps.push(line.whole());
        Ok(())
    }

    /// Puts the sections together. A count stands where its section begins, or at the last line.
    fn finish(self) -> Parsed {
        let mut places = self.places;
        let last = self.last;
        let sections = [
            (places.loops.first().copied(), self.loop_words),
            (self.first_array, self.array_words),
            (places.statements.first().copied(), self.statement_words),
            (places.steps.first().copied(), self.step_words),
        ];
        for (first, words) in sections {
            places.words.push(first.unwrap_or(last));
            places.words.extend(words);
        }
        Parsed {
            nest: self.nest,
            names: self.names,
            places,
        }
    }
}

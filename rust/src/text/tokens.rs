//! Lines of a text as tokens.

use super::{ParseError, Span};

#[derive(Clone, PartialEq, Eq, Debug)]
pub enum Token {
    Name(String),
    Number(String),
    Symbol(char),
}

/// The words that cannot name an index or an array.
const RESERVED: [&str; 13] = [
    "array", "for", "to", "max", "min", "first", "opaque", "exchange", "reverse", "skew", "section", "by", "move",
];

/// One line's tokens, taken one by one.
pub struct Line {
    number: usize,
    tokens: Vec<(Token, Span)>,
    end: usize,
    at: usize,
}

impl Line {
    /// Splits a line; what follows `#` is left out.
    pub fn split(number: usize, text: &str) -> Result<Line, ParseError> {
        let chars: Vec<char> = text.chars().take_while(|&c| c != '#').collect();
        let mut tokens = Vec::new();
        let mut at = 0;
        while at < chars.len() {
            if chars[at].is_whitespace() {
                at += 1;
                continue;
            }
            let (token, length) = next_token(&chars[at..]).ok_or_else(|| {
                let span = Span {
                    line: number,
                    column: at + 1,
                    length: 1,
                };
                ParseError::new(span, format!("'{}' has no meaning here", chars[at].escape_debug()))
            })?;
            tokens.push((
                token,
                Span {
                    line: number,
                    column: at + 1,
                    length,
                },
            ));
            at += length;
        }
        let end = chars.iter().rposition(|c| !c.is_whitespace()).map_or(0, |last| last + 1);
        Ok(Line {
            number,
            tokens,
            end,
            at: 0,
        })
    }

    pub fn is_empty(&self) -> bool {
        self.tokens.is_empty()
    }

    /// The whole line without the blanks around it.
    pub fn whole(&self) -> Span {
        let column = self.tokens.first().map_or(1, |(_, span)| span.column);
        Span {
            line: self.number,
            column,
            length: (self.end + 1).saturating_sub(column).max(1),
        }
    }

    pub fn peek(&self) -> Option<&Token> {
        self.tokens.get(self.at).map(|(token, _)| token)
    }

    pub fn peek_after(&self) -> Option<&Token> {
        self.tokens.get(self.at + 1).map(|(token, _)| token)
    }

    /// Where the next token stands, or the line ends.
    pub fn here(&self) -> Span {
        let end = Span {
            line: self.number,
            column: self.end + 1,
            length: 1,
        };
        self.tokens.get(self.at).map_or(end, |(_, span)| *span)
    }

    /// From the given place to the last token taken.
    pub fn since(&self, start: Span) -> Span {
        let last = self
            .at
            .checked_sub(1)
            .and_then(|at| self.tokens.get(at))
            .map_or(start, |(_, span)| *span);
        Span {
            length: (last.column + last.length).saturating_sub(start.column).max(1),
            ..start
        }
    }

    pub fn error<T>(&self, message: impl Into<String>) -> Result<T, ParseError> {
        Err(ParseError::new(self.here(), message))
    }

    /// The error that something else was expected.
    pub fn expected<T>(&self, what: &str) -> Result<T, ParseError> {
        let found = match self.peek() {
            None => "the end of the line".to_string(),
            Some(Token::Name(text) | Token::Number(text)) => format!("'{text}'"),
            Some(Token::Symbol(c)) => format!("'{c}'"),
        };
        self.error(format!("expected {what}, found {found}"))
    }

    pub fn accept(&mut self, symbol: char) -> bool {
        let found = self.peek() == Some(&Token::Symbol(symbol));
        self.at += usize::from(found);
        found
    }

    pub fn expect(&mut self, symbol: char) -> Result<(), ParseError> {
        if self.accept(symbol) {
            Ok(())
        } else {
            self.expected(&format!("'{symbol}'"))
        }
    }

    pub fn accept_word(&mut self, word: &str) -> bool {
        let found = matches!(self.peek(), Some(Token::Name(name)) if name == word);
        self.at += usize::from(found);
        found
    }

    pub fn expect_word(&mut self, word: &str) -> Result<(), ParseError> {
        if self.accept_word(word) {
            Ok(())
        } else {
            self.expected(&format!("'{word}'"))
        }
    }

    /// A name that is no word of the text form.
    pub fn name(&mut self, what: &str) -> Result<(String, Span), ParseError> {
        let span = self.here();
        match self.peek() {
            Some(Token::Name(name)) if RESERVED.contains(&name.as_str()) => {
                self.error(format!("'{name}' is a word of the text form and cannot be {what}"))
            }
            Some(Token::Name(name)) => {
                let name = name.clone();
                self.at += 1;
                Ok((name, span))
            }
            _ => self.expected(what),
        }
    }

    /// A number without a sign. One beyond 16 bits is no word.
    pub fn number(&mut self, what: &str) -> Result<(i32, Span), ParseError> {
        let span = self.here();
        let Some(Token::Number(digits)) = self.peek() else {
            return self.expected(what);
        };
        match digits.parse::<i32>() {
            Ok(number) if number <= 32768 => {
                self.at += 1;
                Ok((number, span))
            }
            _ => self.error(format!("{digits} is beyond the 16 bits of a word")),
        }
    }

    /// A word: a number with or without a minus sign.
    pub fn word(&mut self, what: &str) -> Result<(i16, Span), ParseError> {
        let start = self.here();
        let negative = self.accept('-');
        let (number, _) = self.number(what)?;
        let span = self.since(start);
        Ok((in_word(if negative { -number } else { number }, span)?, span))
    }

    pub fn finish(&self) -> Result<(), ParseError> {
        if self.at == self.tokens.len() {
            Ok(())
        } else {
            self.expected("the end of the line")
        }
    }
}

/// The token at the front, and its length.
fn next_token(chars: &[char]) -> Option<(Token, usize)> {
    let run = |test: fn(char) -> bool| -> String { chars.iter().copied().take_while(|&c| test(c)).collect() };
    match chars[0] {
        c if c.is_ascii_alphabetic() || c == '_' => {
            let name = run(|c| c.is_ascii_alphanumeric() || c == '_');
            Some((Token::Name(name.clone()), name.len()))
        }
        c if c.is_ascii_digit() => {
            let digits = run(|c| c.is_ascii_digit());
            Some((Token::Number(digits.clone()), digits.len()))
        }
        '−' => Some((Token::Symbol('-'), 1)),
        c if "()+-*/,=".contains(c) => Some((Token::Symbol(c), 1)),
        _ => None,
    }
}

pub fn in_word(number: i32, span: Span) -> Result<i16, ParseError> {
    i16::try_from(number).map_err(|_| ParseError::new(span, format!("{number} is beyond the 16 bits of a word")))
}

//! A ticket: any bytes, which the entries judge.

use crate::nest::Nest;
use crate::text::{self, ParseError};
use crate::words::{ShapeError, WordsError};

/// A ticket. Any bytes are one: the entries judge all of it, and refuse what is no good.
///
/// ```
/// use hurkeztor::{Ticket, judge};
///
/// // Echo case 1 of document 01: A(i+j) = B(i,j), exchanged.
/// let ticket = Ticket::parse_words(
///     "2 1 1 0 1 1 1 1 1 0 0 1 1 2 0 2 1 4 2 2 3 1 3 0 1 0 1 1 1 2 0 1 0 0 0 1 1 1 1 2 0",
/// )?;
/// assert_eq!(judge(&ticket).unwrap_err().to_string(), "refused 10 at step 1, out of order");
///
/// // No bytes at all.
/// assert_eq!(judge(&Ticket::from_bytes([])).unwrap_err().to_string(), "refused 1 at word 1, torn");
/// # Ok::<(), hurkeztor::ParseError>(())
/// ```
#[derive(Clone, PartialEq, Eq, Debug, Hash, Default)]
pub struct Ticket {
    bytes: Vec<u8>,
}

impl Ticket {
    /// The ticket with these bytes.
    pub fn from_bytes(bytes: impl Into<Vec<u8>>) -> Ticket {
        Ticket { bytes: bytes.into() }
    }

    /// The ticket with these words, little-endian.
    pub fn from_words(words: &[i16]) -> Ticket {
        Ticket {
            bytes: words.iter().flat_map(|word| word.to_le_bytes()).collect(),
        }
    }

    /// The ticket whose words are typed in decimal, parted by blanks; `#` starts a comment.
    ///
    /// # Errors
    ///
    /// Where something else than a whole number of 16 bits stands.
    pub fn parse_words(source: &str) -> Result<Ticket, ParseError> {
        let (words, _) = text::parse_words(source)?;
        Ok(Ticket::from_words(&words))
    }

    /// The ticket that a text describes, in the form of [`crate::text`].
    ///
    /// ```
    /// use hurkeztor::{Ticket, judge};
    /// let ticket = Ticket::parse_text("array A(7)\nfor i = 0 to 6\n  A(i) = A(i) + 1\nsection 1 by 4")?;
    /// assert_eq!(judge(&ticket).map(|judgement| judgement.iterations), Ok(7));
    /// # Ok::<(), hurkeztor::ParseError>(())
    /// ```
    ///
    /// # Errors
    ///
    /// Where the text cannot be a ticket.
    pub fn parse_text(source: &str) -> Result<Ticket, ParseError> {
        let parsed = text::parse(source)?;
        Ok(Ticket::from_nest(&parsed.nest).expect("a nest that was read has words"))
    }

    /// The ticket that describes a nest and its steps.
    ///
    /// # Errors
    ///
    /// Where the nest has no words, since its parts do not fit one another.
    pub fn from_nest(nest: &Nest) -> Result<Ticket, ShapeError> {
        Ok(Ticket::from_words(&nest.to_words()?))
    }

    /// The bytes.
    pub fn as_bytes(&self) -> &[u8] {
        &self.bytes
    }

    /// The whole words. A last half word is left out.
    pub fn words(&self) -> Vec<i16> {
        self.bytes
            .chunks_exact(2)
            .map(|pair| i16::from_le_bytes([pair[0], pair[1]]))
            .collect()
    }

    /// The nest that the ticket describes.
    ///
    /// # Errors
    ///
    /// Where it describes none; [`crate::judge`] says why such a ticket is refused.
    pub fn nest(&self) -> Result<Nest, WordsError> {
        if self.bytes.len() % 2 == 1 {
            return Err(WordsError::half(self.bytes.len() / 2 + 1));
        }
        Nest::from_words(&self.words())
    }
}

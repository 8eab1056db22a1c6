//! Hurkeztor judges reorderings of loop nests. A [`Ticket`] describes a nest (limits, array subscripts, statements) and proposed steps:
//! exchange, reversal, skew, section, circulation. Hurkeztor accepts the new order, or refuses it with a number and a place.
//!
//! Every answer comes from one of six proved entries; this crate is thin around them and judges nothing itself.
//!
//! ```
//! use hurkeztor::{Ticket, judge, write};
//!
//! let ticket = Ticket::parse_text("
//!     array A(3, 4)
//!     for i = 0 to 2
//!       for j = 1 to 3
//!         A(i, j) = A(i, j-1)
//!     exchange 1 2
//! ")?;
//! assert_eq!(judge(&ticket)?.iterations, 9);
//!
//! let new_nest = write(&ticket)?.nest()?;
//! assert_eq!(new_nest.to_string(), "\
//! array A(3, 4)
//!
//! for i = 1 to 3
//!   for j = 0 to 2
//!     A(j, i) = A(j, i-1)
//! ");
//! # Ok::<(), Box<dyn std::error::Error>>(())
//! ```
//!
//! | to have | see |
//! |---|---|
//! | a ticket from bytes, words, a text or code | [`Ticket`], [`text`], [`NestBuilder`] |
//! | an answer | [`judge`], [`write()`], [`list`], [`quick`], [`run`], [`why`] |
//! | what an answer says | [`Judgement`], [`Refusal`], [`Listing`], [`Independence`], [`Reason`] |
//! | the entries on bytes as they are | [`entries`] |
//! | a picture | [`draw`] |
//!
//! The library is for x86-64 Linux alone.

#![deny(unsafe_code)]
#![warn(missing_docs)]

mod answers;
mod build;
pub mod draw;
pub mod entries;
mod listing;
mod nest;
mod reason;
mod space;
pub mod text;
mod ticket;
mod words;

pub use answers::{Independence, Judgement, Place, Refusal};
pub use build::{ArrayName, Bound, BuildError, Element, Expression, IntoBounds, NestBuilder};
pub use listing::{Direction, Kind, Listing, Sign};
pub use nest::{Access, Array, Limit, Loop, Nest, Rule, Statement, Step, Subscript};
pub use reason::{Pair, Reason};
pub use text::ParseError;
pub use ticket::Ticket;
pub use words::{ShapeError, WordsError};

use entries::PairRecord;

/// The bytes of the longest new nest.
pub const LONGEST_NEST: usize = 2_696;
/// The bytes of the longest listing.
pub const LONGEST_LISTING: usize = 21_330;

/// Judges the ticket: whether every array ends the same in the new order.
///
/// # Errors
///
/// The refusal, numbers 1 to 13.
pub fn judge(ticket: &Ticket) -> Result<Judgement, Refusal> {
    let iterations = answers::accepted(entries::judge(ticket.as_bytes()))?;
    Ok(Judgement { iterations })
}

/// Writes the new nest: the ticket's, after its steps, with no steps left. It may have up to 6 loops and 16 limits a side.
///
/// # Errors
///
/// The refusal, numbers 1 to 13.
pub fn write(ticket: &Ticket) -> Result<Ticket, Refusal> {
    let mut out = vec![0; LONGEST_NEST];
    let length = answers::accepted(entries::write(ticket.as_bytes(), &mut out))?;
    out.truncate(length as usize);
    Ok(Ticket::from_bytes(out))
}

/// Lists the directions of the ticket's own nest. Its steps are read and not judged.
///
/// ```
/// use hurkeztor::{Kind, Ticket, list};
/// let listing = list(&Ticket::parse_text("array A(7)\nfor i = 0 to 6\n  A(i) = A(6-i)")?)?;
/// assert_eq!(listing.to_string(), "1 7 2\nF 1 1 <\nA 1 1 <\n");
/// assert_eq!(listing.directions[0].kind, Kind::Flow);
/// # Ok::<(), Box<dyn std::error::Error>>(())
/// ```
///
/// # Errors
///
/// The refusal, numbers 1 to 9.
pub fn list(ticket: &Ticket) -> Result<Listing, Refusal> {
    let mut out = vec![0; LONGEST_LISTING];
    let length = answers::accepted(entries::list(ticket.as_bytes(), &mut out))?;
    let text = std::str::from_utf8(&out[..length as usize]).ok();
    Ok(text.and_then(Listing::read).expect("the list entry writes a listing"))
}

/// Tests whether two accesses are apart: they never name one element. Accesses are numbered from 1 in ticket order, as
/// [`Nest::accesses`] gives them.
///
/// ```
/// use hurkeztor::{Independence, Ticket, quick};
/// let ticket = Ticket::parse_text("array A(21)\nfor i = 0 to 9\n  A(2*i) = A(2*i+1)")?;
/// assert_eq!(quick(&ticket, 1, 2)?, Independence::Apart);
/// # Ok::<(), Box<dyn std::error::Error>>(())
/// ```
///
/// # Errors
///
/// The refusal, numbers 1 to 9; number 4 without a place where there is no such access.
pub fn quick(ticket: &Ticket, first: u64, second: u64) -> Result<Independence, Refusal> {
    match answers::accepted(entries::quick(ticket.as_bytes(), first, second))? {
        0 => Ok(Independence::Perhaps),
        _ => Ok(Independence::Apart),
    }
}

/// Runs the nest in its new order on a store: one word for each element, arrays following one another, last subscript fastest. The store
/// ends as the old order leaves it.
///
/// ```
/// use hurkeztor::{Ticket, run};
/// let ticket = Ticket::parse_text("array A(4)\nfor i = 1 to 3\n  A(i) = A(i-1) + 1\nsection 1 by 2")?;
/// let mut store = [7, 0, 0, 0];
/// run(&ticket, &mut store)?;
/// assert_eq!(store, [7, 8, 9, 10]);
/// # Ok::<(), Box<dyn std::error::Error>>(())
/// ```
///
/// # Errors
///
/// The refusal, numbers 1 to 13, 15 and 16. The store is as it was then.
pub fn run(ticket: &Ticket, store: &mut [u32]) -> Result<Judgement, Refusal> {
    let iterations = answers::accepted(entries::run(ticket.as_bytes(), store))?;
    Ok(Judgement { iterations })
}

/// A list that mostly takes all pairs.
const FIRST_LIST: usize = 4096;

/// Tells the true reason of a refusal with number 10: the conflicting instances that trade places at the refused step, the first `most` of them.
///
/// ```
/// use hurkeztor::{Reason, Ticket, why};
/// let ticket = Ticket::parse_text("array A(4)\nfor i = 0 to 1\n  for j = 0 to 2\n    A(i+j) = 1\nexchange 1 2")?;
/// let Reason::Pairs { step: 1, count: 2, pairs } = why(&ticket, 20) else { panic!() };
/// assert_eq!(pairs[0].to_string(), "O 1 1 (0, 1) (1, 0)");
/// assert_eq!(pairs[1].to_string(), "O 1 1 (0, 2) (1, 1)");
/// # Ok::<(), hurkeztor::ParseError>(())
/// ```
pub fn why(ticket: &Ticket, most: usize) -> Reason {
    let mut list = vec![PairRecord::default(); most.min(FIRST_LIST)];
    let answer = entries::reason(ticket.as_bytes(), &mut list);
    if answer.number != 0 || answer.place == 0 {
        return Reason::Judged(answers::accepted(answer).map(|iterations| Judgement { iterations }));
    }
    let (step, count) = (answer.place, answer.count);
    if count == 0 {
        return Reason::TableAlone { step };
    }
    let wanted = most.min(count as usize);
    if wanted > list.len() {
        list = vec![PairRecord::default(); wanted];
        entries::reason(ticket.as_bytes(), &mut list);
    }
    let loops = ticket.words().first().map_or(0, |loops| *loops as usize);
    let pairs = list[..wanted].iter().map(|record| Pair::of(record, loops)).collect();
    Reason::Pairs { step, count, pairs }
}

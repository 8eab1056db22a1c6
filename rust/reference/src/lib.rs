//! Document 01 the slow obvious way, with the circulations (L1) and the reason tool (L2) of document 02, for tests only.
//!
//! It was written from the documents alone and shares no code with the library that it is compared with. Each module has the name of the
//! document's section that it says: `ticket` (with `reading` and `writing` of its bytes), `answers`, `points` (partial points and the
//! refusals that ask for them), `directions`, `limits` after a step, `quick` test, `run`, `plain_run` and `echo` (the listing's text); `reason`
//! has the name of document 02's tool. The six functions [`judge`], [`write`], [`list`], [`quick`], [`run`] and [`reason`](fn@reason) mean what the
//! entries of that name mean.
//!
//! `tickets` and `stored_cases` are not of the document: the one makes tickets of all shapes from a seed, the other answers the cases of the test
//! program of the five entries.

pub mod answers;
pub mod directions;
pub mod echo;
pub mod limits;
pub mod plain_run;
pub mod points;
pub mod quick;
pub mod reading;
pub mod reason;
pub mod run;
pub mod stored_cases;
pub mod ticket;
pub mod tickets;
pub mod writing;

pub use answers::{Answer, Answers, Refusal, judge, list, quick, reason, run, write};

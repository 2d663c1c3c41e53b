//! What `plans` and `searches` do alike with what they ask the original, whatever it is.
//!
//! `question` is what a question and its answer must know of themselves; `vectors` writes, reads and
//! checks them, `text` has the numbers in their lines, `bits` the range of two of them; `tally` asks many, counts them in `rows`
//! and compares; `checks` is for tests.

pub mod bits;
pub mod checks;
pub mod question;
pub mod rows;
pub mod tally;
pub mod text;
pub mod vectors;

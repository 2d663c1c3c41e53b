//! Searches: the original's degree search and its constraint polynomial, asked and kept as vectors.
//!
//! `question` is what is asked and answered; `search` and `constraint` ask the original, `contexts` is
//! what is done to a context beforehand. `text` and `vectors` write and read them; `surprises`, `edges`
//! and `random` think up questions, `stored` keeps them, `tally` counts and compares.

pub mod constraint;
pub mod contexts;
pub mod edges;
pub mod question;
pub mod random;
pub mod search;
pub mod stored;
pub mod surprises;
pub mod tally;
pub mod text;
pub mod vectors;

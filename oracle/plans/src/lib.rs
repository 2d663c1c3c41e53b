//! Plans: the original's `map` and what it does to lists, asked and kept as vectors.
//!
//! `plan`, `input` and `lists` are what is asked about, `input` and `dimensions` say what
//! document 01 refuses; `original_map`, `sections` and `walks` ask the original, `mapped` is what
//! `map` answers. `question` puts these together, `text` and `vectors` write and read them; `surprises`,
//! `edges`, `list_edges` and `shapes` (by way of `written`), `random`, `faults` and `random_lists` think up
//! questions, `stored` keeps them, `tally` counts and compares.

pub mod dimensions;
pub mod edges;
pub mod faults;
pub mod input;
pub mod list_edges;
pub mod lists;
pub mod mapped;
pub mod original_map;
pub mod plan;
pub mod question;
pub mod random;
pub mod random_lists;
pub mod sections;
pub mod shapes;
pub mod stored;
pub mod surprises;
pub mod tally;
pub mod text;
pub mod vectors;
pub mod walks;
pub mod written;

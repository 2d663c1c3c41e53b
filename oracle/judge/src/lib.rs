//! The judge: asks the original for answers to scripts, and keeps them as vectors.
//!
//! `kinds`, `hex`, `literal`, `pool` and `script` read what is asked; `run` asks the original and
//! `answer` writes what it says; `case`, `surprises`, `exhaustive` and `random` think up scripts;
//! `vectors` and `stored` keep them with their answers.
//!
//! The program `steps` is compared on whole runs: `printed` says what the original's answer looks
//! like in its output, `program` asks it, `differ` compares on random inputs and `shrink` makes
//! smaller what differs; `chosen` thinks up inputs, and `texts`, `runs` and `stored_runs` keep them.
//!
//! `command` is what the command lines of this and of other programs do alike, `refusals` are document 01's
//! numbers.

pub mod answer;
pub mod case;
pub mod chosen;
pub mod command;
pub mod differ;
pub mod exhaustive;
pub mod hex;
pub mod kinds;
pub mod literal;
pub mod pool;
pub mod printed;
pub mod program;
pub mod random;
pub mod refusals;
pub mod run;
pub mod runs;
pub mod script;
pub mod shrink;
pub mod stored;
pub mod stored_runs;
pub mod surprises;
pub mod texts;
pub mod vectors;

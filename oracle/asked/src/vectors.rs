//! Vectors of questions, with the answers of document 01.

use crate::question::{Lines, Question};
use judge::command::Done;
use judge::run::on_large_stack;
use judge::script::{Line, TextFault};
use judge::vectors;

pub use judge::vectors::{Case, Vector};

/// Whether neither a question's text nor its answer's is longer than so many bytes.
pub fn is_short<Q: Question>(question: &Q, longest: usize) -> Result<bool, String> {
    Ok(question.to_string().len().max(question.ask()?.to_string().len()) <= longest)
}

/// The text of these questions with their answers, each after an empty line.
pub fn answered<Q: Question>(cases: impl IntoIterator<Item = Case<Q>>) -> Result<String, String> {
    let text = |case: Case<Q>| {
        let answer = case.question.ask().map_err(|text| format!("{}: {}", case.name, text))?;
        Ok(format!("\n{}", Vector { case, answer: answer.to_string() }))
    };
    cases.into_iter().map(text).collect()
}

pub fn parse<Q: Question>(text: &str) -> Result<Vec<Vector<Q>>, TextFault> {
    vectors::parse(text, question)
}

/// Reads a question; a fault outside of its lines is put on line `start`.
fn question<Q: Question>(lines: &[Line<'_>], start: usize) -> Result<Q, TextFault> {
    let mut said = Q::Lines::default();
    for &(line, text) in lines {
        said.take(text).map_err(|text| TextFault { line, text })?;
    }
    said.question().map_err(|text| TextFault { line: start, text })
}

/// The command `check`: asks again for every vector of a file and compares.
pub fn check<Q: Question + Sync>(program: &str, file: &str) -> Done {
    let ask = |question: &Q| on_large_stack(|| Ok(question.ask()?.to_string()));
    vectors::check(program, file, parse, ask)
}

#[cfg(test)]
mod tests {
    use super::*;
    use crate::checks::{are_faults, difference};
    use crate::question::{Given, Refused};
    use std::fmt;

    /// Asks for the length of a line.
    #[derive(Debug, Default)]
    struct Length(String);

    #[derive(PartialEq)]
    struct Bytes(usize);

    impl Question for Length {
        type Lines = Length;
        type Given = Bytes;

        fn given(&self) -> Result<Bytes, Refused> {
            Ok(Bytes(self.0.len()))
        }
    }

    impl Lines for Length {
        type Question = Length;

        fn take(&mut self, line: &str) -> Result<(), String> {
            let line = line.strip_prefix("length of ").ok_or("this asks for no length")?;
            self.0 = line.to_string();
            Ok(())
        }

        fn question(self) -> Result<Length, String> {
            match self.0.is_empty() {
                true => Err("this asks nothing".to_string()),
                false => Ok(self),
            }
        }
    }

    impl Given for Bytes {
        type Counts = String;

        fn count_in(&self, _: &mut String) {}
    }

    impl fmt::Display for Length {
        fn fmt(&self, f: &mut fmt::Formatter<'_>) -> fmt::Result {
            writeln!(f, "length of {}", self.0)
        }
    }

    impl fmt::Display for Bytes {
        fn fmt(&self, f: &mut fmt::Formatter<'_>) -> fmt::Result {
            writeln!(f, "{}", self.0)
        }
    }

    const ONE: &str = "vector one\nlength of it\nanswers\n2\nend\n";

    #[test]
    fn a_vector_is_written_and_read_again() {
        let case = Case::new("one", Length("it".to_string())).note("two letters");
        assert!(is_short(&case.question, 13).unwrap());
        assert!(!is_short(&case.question, 12).unwrap());
        let written = answered([case]).unwrap();
        assert_eq!(written, format!("\n# two letters\n{}", ONE));
        let read = parse::<Length>(&written).unwrap();
        assert_eq!(read[0].to_string(), ONE);
    }

    #[test]
    fn a_wrong_answer_is_shown() {
        assert_eq!(difference::<Length>(ONE), None);
        let difference = difference::<Length>(&ONE.replace('2', "3"));
        assert_eq!(difference.as_deref(), Some("stored `3`, the original says `2`"));
    }

    #[test]
    fn malformed_questions_are_named_by_line() {
        are_faults::<Length>(&[
            ("vector a\nanswers\nend\n", "line 1: this asks nothing"),
            ("vector a\n\nwidth\nanswers\nend\n", "line 3: this asks for no length"),
        ]);
    }
}

//! Questions and answers. Whatever is compared with the original answers the same questions: a
//! function from a question to its answer is all that a comparison needs.

use std::fmt;

/// A question; its text is lines.
pub trait Question: fmt::Display + Sized {
    type Lines: Lines<Question = Self>;
    type Given: Given;

    /// What the original gives, or why it gives nothing.
    fn given(&self) -> Result<Self::Given, Refused>;

    /// The answer of document 01: the original's, or a refusal. Fails where the original did what the
    /// document has no word for. Call it on a large stack.
    fn ask(&self) -> Result<AnswerTo<Self>, String> {
        match self.given() {
            Ok(given) => Ok(Answer::Given(given)),
            Err(Refused::With(number)) => Ok(Answer::Refused(number)),
            Err(Refused::Not(text)) => Err(text),
        }
    }
}

/// What the lines of a question have said so far.
pub trait Lines: Default {
    type Question;

    fn take(&mut self, line: &str) -> Result<(), String>;

    fn question(self) -> Result<Self::Question, String>;
}

/// What is given to a question that is not refused; its text is lines.
pub trait Given: fmt::Display + PartialEq {
    /// What is counted of all that is given, beside how often.
    type Counts: Default + fmt::Display + Send;

    fn count_in(&self, counts: &mut Self::Counts);
}

/// An answer; its text is lines.
#[derive(Clone, Debug, PartialEq, Eq)]
pub enum Answer<G> {
    Given(G),
    Refused(u8),
}

pub type AnswerTo<Q> = Answer<<Q as Question>::Given>;

impl<G: fmt::Display> fmt::Display for Answer<G> {
    fn fmt(&self, f: &mut fmt::Formatter<'_>) -> fmt::Result {
        match self {
            Answer::Given(given) => given.fmt(f),
            Answer::Refused(number) => writeln!(f, "refused {}", number),
        }
    }
}

/// Why the original gives no answer.
#[derive(Clone, Debug, PartialEq, Eq)]
pub enum Refused {
    With(u8),
    /// The original did what document 01 has no word for.
    Not(String),
}

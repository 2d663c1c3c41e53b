//! Vectors: questions stored with their answers, as text.

use crate::command::{self, Done};
use crate::script::{name_of, numbered, Line, TextFault};
use std::collections::HashSet;
use std::fmt;

/// A question with its name and, where the name does not say it, what it shows.
#[derive(Clone, Debug)]
pub struct Case<Q> {
    pub name: String,
    pub note: Option<String>,
    pub question: Q,
}

impl<Q> Case<Q> {
    pub fn new(name: &str, question: Q) -> Case<Q> {
        Case { name: name.to_string(), note: None, question }
    }

    pub fn note(self, note: &str) -> Case<Q> {
        Case { note: Some(note.to_string()), ..self }
    }
}

#[derive(Clone, Debug)]
pub struct Vector<Q> {
    pub case: Case<Q>,
    pub answer: String,
}

impl<Q> Vector<Q> {
    /// The first line in which another answer differs from the stored one, if it does.
    pub fn difference(&self, answer: &str) -> Option<Difference> {
        if answer == self.answer {
            return None;
        }
        let (mut stored, mut given) = (self.answer.lines(), answer.lines());
        loop {
            let (stored, given) = (stored.next(), given.next());
            if stored != given || stored.is_none() {
                let line = |line: Option<&str>| line.unwrap_or("nothing").to_string();
                return Some(Difference { stored: line(stored), given: line(given) });
            }
        }
    }
}

#[derive(Debug, PartialEq, Eq)]
pub struct Difference {
    pub stored: String,
    pub given: String,
}

impl fmt::Display for Difference {
    fn fmt(&self, f: &mut fmt::Formatter<'_>) -> fmt::Result {
        write!(f, "stored `{}`, the original says `{}`", self.stored, self.given)
    }
}

impl<Q: fmt::Display> fmt::Display for Vector<Q> {
    fn fmt(&self, f: &mut fmt::Formatter<'_>) -> fmt::Result {
        if let Some(note) = &self.case.note {
            writeln!(f, "# {}", note)?;
        }
        let Case { name, question, .. } = &self.case;
        writeln!(f, "vector {}\n{}answers\n{}end", name, question, self.answer)
    }
}

/// Reads a list of vectors. Notes are comments and are not read. `question` makes one of its lines; a fault outside of
/// these it puts on the line that it is given.
pub fn parse<Q>(
    text: &str,
    question: impl Fn(&[Line<'_>], usize) -> Result<Q, TextFault>,
) -> Result<Vec<Vector<Q>>, TextFault> {
    let mut names = HashSet::new();
    let mut lines = numbered(text);
    let mut vectors = Vec::new();
    while let Some((line, head)) = lines.next() {
        let name = name_of("vector", head, &mut names).map_err(|text| TextFault { line, text })?;
        let question = question(&up_to("answers", &mut lines, line)?, line)?;
        let answer = up_to("end", &mut lines, line)?;
        let answer = answer.iter().map(|(_, text)| format!("{}\n", text)).collect();
        vectors.push(Vector { case: Case::new(name, question), answer });
    }
    Ok(vectors)
}

/// The lines before the one that reads `stop`.
fn up_to<'a>(
    stop: &str,
    lines: &mut impl Iterator<Item = Line<'a>>,
    start: usize,
) -> Result<Vec<Line<'a>>, TextFault> {
    let mut taken = Vec::new();
    for line in lines {
        if line.1 == stop {
            return Ok(taken);
        }
        taken.push(line);
    }
    Err(TextFault { line: start, text: format!("this vector has no line `{}`", stop) })
}

/// The command `check`: asks again for every vector of a file and compares.
pub fn check<Q>(
    of: &str,
    file: &str,
    parse: impl Fn(&str) -> Result<Vec<Vector<Q>>, TextFault>,
    ask: impl Fn(&Q) -> Result<String, String>,
) -> Done {
    let vectors =
        parse(&command::contents(file)?).map_err(|fault| format!("{}, {}", file, fault))?;
    if vectors.is_empty() {
        return Err(format!("{} has no vectors", file));
    }
    let mut equal = 0;
    for vector in &vectors {
        let Case { name, question, .. } = &vector.case;
        match ask(question).map(|answer| vector.difference(&answer)) {
            Ok(None) => equal += 1,
            Ok(Some(difference)) => eprintln!("{}: {}", name, difference),
            Err(text) => eprintln!("{}: {}", name, text),
        }
    }
    command::compared(of, "vectors", vectors.len(), equal)
}

#[cfg(test)]
mod tests {
    use super::*;

    const TWO: &str = "\
# two letters
vector one
length of it
answers
2
letters
end
vector none
answers
end
";

    fn read(text: &str) -> Result<Vec<Vector<String>>, TextFault> {
        let joined = |lines: &[Line<'_>], _| {
            Ok(lines.iter().map(|(_, text)| format!("{}\n", text)).collect())
        };
        parse(text, joined)
    }

    #[test]
    fn vectors_are_read_and_written() {
        let vectors = read(TWO).unwrap();
        assert_eq!(vectors[0].answer, "2\nletters\n");
        let written: String = vectors.iter().map(Vector::to_string).collect();
        assert_eq!(format!("# two letters\n{}", written), TWO);
        let noted =
            Vector { case: vectors[0].case.clone().note("two letters"), ..vectors[0].clone() };
        assert!(TWO.starts_with(&noted.to_string()));
    }

    #[test]
    fn the_first_line_that_differs_is_shown() {
        let vectors = read(TWO).unwrap();
        let shown = |answer| vectors[0].difference(answer).map(|difference| difference.to_string());
        assert_eq!(shown("2\nletters\n"), None);
        let shown = |answer| shown(answer).expect("a difference");
        assert_eq!(shown("2\nwords\n"), "stored `letters`, the original says `words`");
        assert_eq!(shown("2\n"), "stored `letters`, the original says `nothing`");
        assert_eq!(shown("2\nletters\n3\n"), "stored `nothing`, the original says `3`");
    }

    #[test]
    fn malformed_lists_are_named_by_line() {
        let fault = |text: &str| read(text).expect_err(text).to_string();
        assert_eq!(fault("build\n"), "line 1: `vector NAME` comes here, not \"build\"");
        assert_eq!(fault("vector a\nbuild\n"), "line 1: this vector has no line `answers`");
        assert_eq!(fault("vector a\nend\n"), "line 1: this vector has no line `answers`");
        assert_eq!(fault("vector a\nanswers\n"), "line 1: this vector has no line `end`");
        assert_eq!(fault(&TWO.repeat(2)), "line 12: there are two vectors one");
    }
}

//! Whole runs of the program `steps`: inputs stored with what must be printed.

use crate::printed::Printed;
use crate::program::Program;
use crate::script::{name_of, numbered, Line, Script, TextFault};
use crate::texts::{expand, Piece};
use std::collections::HashSet;
use std::fmt;

/// Who says what must be printed.
#[derive(Clone, Copy, Debug, PartialEq, Eq)]
pub enum Source {
    /// The original, asked for these requests.
    Original,
    /// Document 01's table of refusals, where the original has no answer.
    Document,
}

impl Source {
    const ALL: [Source; 2] = [Source::Original, Source::Document];

    fn word(self) -> &'static str {
        match self {
            Source::Original => "original",
            Source::Document => "document",
        }
    }
}

#[derive(Clone, Debug, PartialEq, Eq)]
pub struct Run {
    pub name: String,
    pub note: Option<String>,
    pub input: Vec<Piece>,
    pub source: Source,
    pub output: Vec<Piece>,
}

impl Run {
    /// How the program's answer differs, in words, if it does.
    pub fn difference(&self, program: &dyn Program) -> Result<Option<String>, String> {
        let expected = String::from_utf8(expand(&self.output)?)
            .map_err(|_| "the expected output is no text".to_string())?;
        let reply = program.ask(&expand(&self.input)?)?;
        Ok(if reply.is(&expected) { None } else { Some(reply.difference(&expected)) })
    }
}

/// What the original would have the program print to an input.
pub fn original_output(input: &[Piece]) -> Result<String, String> {
    let text = String::from_utf8(expand(input)?).map_err(|_| "no text".to_string())?;
    let script = Script::from_frames(&text).map_err(|fault| fault.to_string())?;
    Ok(Printed::of(&script)?.to_string())
}

impl fmt::Display for Run {
    fn fmt(&self, f: &mut fmt::Formatter<'_>) -> fmt::Result {
        if let Some(note) = &self.note {
            writeln!(f, "# {}", note)?;
        }
        writeln!(f, "run {}", self.name)?;
        self.input.iter().try_for_each(|piece| writeln!(f, "{}", piece))?;
        writeln!(f, "output {}", self.source.word())?;
        self.output.iter().try_for_each(|piece| writeln!(f, "{}", piece))?;
        writeln!(f, "end")
    }
}

/// Reads a list of runs. Notes are comments and are not read.
pub fn parse(text: &str) -> Result<Vec<Run>, TextFault> {
    let mut names = HashSet::new();
    let mut lines = numbered(text);
    let mut runs = Vec::new();
    while let Some((line, head)) = lines.next() {
        let fault = |text: String| TextFault { line, text };
        let name = name_of("run", head, &mut names).map_err(fault)?;
        let lost = |what: &str| fault(format!("this run has no line `{}`", what));
        let (input, source) =
            pieces(&mut lines, output_source)?.ok_or_else(|| lost("output SOURCE"))?;
        let is_end = |text: &str| if text == "end" { Some(()) } else { None };
        let (output, ()) = pieces(&mut lines, is_end)?.ok_or_else(|| lost("end"))?;
        runs.push(Run { name: name.to_string(), note: None, input, source, output });
    }
    Ok(runs)
}

fn output_source(text: &str) -> Option<Source> {
    let word = text.strip_prefix("output ")?;
    Source::ALL.into_iter().find(|source| source.word() == word)
}

/// The pieces before the line that `stop` knows, and what it makes of that.
fn pieces<'a, T>(
    lines: &mut impl Iterator<Item = Line<'a>>,
    stop: impl Fn(&str) -> Option<T>,
) -> Result<Option<(Vec<Piece>, T)>, TextFault> {
    let mut pieces = Vec::new();
    for (line, text) in lines {
        if let Some(stopped) = stop(text) {
            return Ok(Some((pieces, stopped)));
        }
        pieces.push(Piece::parse(text).map_err(|text| TextFault { line, text })?);
    }
    Ok(None)
}

#[cfg(test)]
mod tests {
    use super::*;
    use crate::program::Reply;

    const TWO: &str = "\
# a bare cm0
run bare
011000000000
02000000
each 0 0 03{}0000
output original
08120000000110000000
fe0000
end

run carriage-return
text 011000000000\\x0d\\n
output document
ff01
end
";

    struct Fixed(&'static str);

    impl Program for Fixed {
        fn ask(&self, _: &[u8]) -> Result<Reply, String> {
            Ok(Reply::Printed(self.0.as_bytes().to_vec()))
        }
    }

    #[test]
    fn runs_are_read_checked_and_written() {
        let runs = parse(TWO).unwrap();
        assert_eq!(format!("# a bare cm0\n{}\n{}", runs[0], runs[1]), TWO);
        assert_eq!(runs[1].difference(&Fixed("ff01\n")), Ok(None));
        let difference = runs[1].difference(&Fixed("ff02\n")).unwrap();
        assert_eq!(difference.unwrap(), r#"line 1: expected "ff01\n", printed "ff02\n""#);
        assert_eq!(original_output(&runs[0].input).unwrap(), "08120000000110000000\nfe0000\n");
        assert!(original_output(&runs[1].input).is_err());
    }

    #[test]
    fn malformed_lists_are_named_by_line() {
        let fault = |text: &str| parse(text).expect_err(text).to_string();
        assert_eq!(fault("end\n"), "line 1: `run NAME` comes here, not \"end\"");
        assert_eq!(fault("run a\n00\n"), "line 1: this run has no line `output SOURCE`");
        assert_eq!(fault("run a\noutput document\n"), "line 1: this run has no line `end`");
        assert_eq!(
            fault("run a\noutput me\n"),
            "line 2: digits, `each` or `text` come here, not \"output me\""
        );
        assert_eq!(fault(&TWO.repeat(2)), "line 17: there are two runs bare");
    }
}

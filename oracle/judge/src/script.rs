//! Scripts: a pool in the frames of document 01, then commands.
//!
//! One frame or command a line; empty lines and lines that begin with `#` are passed over.
//!
//! ```text
//! 01...                    a node, in hexadecimal
//! 02...                    an expression
//! request E P M            expression, prime, muladd: decimal, 0 or 1, 0 or 1
//! request E P M KIND ID    the same, asking for a result: two hex digits, decimal
//! 03...                    a request frame, the same as `request E P M`
//! build
//! ```

use crate::hex::{self, Reader};
use crate::kinds::Kind;
use crate::pool::{Expression, Node, Pool, EXPRESSION_FRAME, NODE_FRAME};
use std::collections::HashSet;
use std::fmt;

pub const REQUEST_FRAME: u8 = 0x03;

/// The most requests that the program `steps` takes.
pub const MAX_REQUESTS: usize = 1024;

/// The reference that a request asks its result to be copied to.
#[derive(Clone, Copy, Debug, PartialEq, Eq)]
pub struct Asked {
    pub kind: Kind,
    pub id: u16,
}

#[derive(Clone, Copy, Debug, PartialEq, Eq)]
pub struct Request {
    pub expression: u16,
    pub prime: bool,
    pub muladd: bool,
    pub asked: Option<Asked>,
}

#[derive(Clone, Copy, Debug, PartialEq, Eq)]
pub enum Command {
    Request(Request),
    Build,
}

#[derive(Clone, Debug, Default, PartialEq, Eq)]
pub struct Script {
    pub pool: Pool,
    pub commands: Vec<Command>,
}

/// What is wrong with a text, and in which line (the first is 1).
#[derive(Debug, PartialEq, Eq)]
pub struct TextFault {
    pub line: usize,
    pub text: String,
}

impl fmt::Display for TextFault {
    fn fmt(&self, f: &mut fmt::Formatter<'_>) -> fmt::Result {
        write!(f, "line {}: {}", self.line, self.text)
    }
}

/// A line with its number, as `numbered` gives it.
pub type Line<'a> = (usize, &'a str);

/// The lines that say something, numbered from 1.
pub fn numbered(text: &str) -> impl Iterator<Item = Line<'_>> {
    text.lines()
        .enumerate()
        .map(|(index, line)| (index + 1, line))
        .filter(|(_, line)| !line.is_empty() && !line.starts_with('#'))
}

/// The name in a line `WORD NAME`, which none of `names` is; it is put to these.
pub fn name_of<'a>(
    word: &str,
    line: &'a str,
    names: &mut HashSet<&'a str>,
) -> Result<&'a str, String> {
    let name = line.strip_prefix(word).and_then(|rest| rest.strip_prefix(' '));
    let name = name.ok_or_else(|| format!("`{} NAME` comes here, not {:?}", word, line))?;
    match names.insert(name) {
        true => Ok(name),
        false => Err(format!("there are two {}s {}", word, name)),
    }
}

impl Script {
    pub fn parse<'a>(lines: impl Iterator<Item = Line<'a>>) -> Result<Script, TextFault> {
        let mut script = Script::default();
        let mut node_lines = Vec::new();
        for (line, text) in lines {
            script.take_line(text).map_err(|text| TextFault { line, text })?;
            if node_lines.len() < script.pool.nodes().len() {
                node_lines.push(line);
            }
        }
        script
            .pool
            .check_links()
            .map_err(|fault| TextFault { line: node_lines[fault.node], text: fault.text })?;
        Ok(script)
    }

    /// Reads an input of the program `steps`: frames only, a last line feed or none.
    pub fn from_frames(text: &str) -> Result<Script, TextFault> {
        match text.split_inclusive('\n').position(|line| !is_frame(line)) {
            Some(index) => {
                Err(TextFault { line: index + 1, text: "a frame comes here".to_string() })
            }
            None => Script::parse(numbered(text)),
        }
    }

    /// The pool and the requests as an input of the program `steps`. Builds and results that
    /// are asked for have no frame.
    pub fn frames(&self) -> String {
        let mut text = String::new();
        let mut push = |frame: Vec<u8>| {
            text.push_str(&hex::encode(&frame));
            text.push('\n');
        };
        self.pool.nodes().iter().for_each(|node| push(node.frame()));
        self.pool.expressions().iter().for_each(|expression| push(expression.frame()));
        self.requests().for_each(|request| push(request.frame()));
        text
    }

    pub fn requests(&self) -> impl Iterator<Item = &Request> {
        self.commands.iter().filter_map(|command| match command {
            Command::Request(request) => Some(request),
            Command::Build => None,
        })
    }

    fn take_line(&mut self, text: &str) -> Result<(), String> {
        let words: Vec<&str> = text.split_whitespace().collect();
        match words[..] {
            ["build"] => self.commands.push(Command::Build),
            ["request", ref rest @ ..] => {
                self.commands.push(Command::Request(Request::from_words(rest)?));
            }
            _ => self.take_frame(&hex::decode(text)?)?,
        }
        Ok(())
    }

    fn take_frame(&mut self, bytes: &[u8]) -> Result<(), String> {
        let mut reader = Reader::new(bytes);
        let late = |what: &str| Err(format!("{} frames come before what is here already", what));
        match reader.u8()? {
            NODE_FRAME if !self.pool.expressions().is_empty() || !self.commands.is_empty() => {
                return late("node");
            }
            NODE_FRAME => {
                self.pool.push_node(Node::read(reader)?)?;
            }
            EXPRESSION_FRAME if !self.commands.is_empty() => return late("expression"),
            EXPRESSION_FRAME => {
                self.pool.push_expression(Expression::read(reader)?)?;
            }
            REQUEST_FRAME => self.commands.push(Command::Request(Request::read(reader)?)),
            other => return Err(format!("no frame begins with {:02x}", other)),
        }
        Ok(())
    }
}

impl Request {
    fn from_words(words: &[&str]) -> Result<Request, String> {
        let (plain, asked) = match *words {
            [e, p, m] => ([e, p, m], None),
            [e, p, m, kind, id] => ([e, p, m], Some(Asked::from_words(kind, id)?)),
            _ => return Err("a request is: request E P M, or request E P M KIND ID".to_string()),
        };
        Ok(Request {
            expression: number(plain[0], "an expression")?,
            prime: bit(plain[1], "a prime")?,
            muladd: bit(plain[2], "muladd")?,
            asked,
        })
    }

    /// The frame of the same request without the result that it asks for.
    pub fn frame(&self) -> Vec<u8> {
        let mut bytes = vec![REQUEST_FRAME];
        bytes.extend(self.expression.to_be_bytes());
        bytes.extend([u8::from(self.prime), u8::from(self.muladd)]);
        bytes
    }

    /// Reads what follows the frame's first byte.
    fn read(mut reader: Reader<'_>) -> Result<Request, String> {
        let expression = reader.u16()?;
        let prime = reader.bit("a prime")?;
        let muladd = reader.bit("muladd")?;
        reader.end()?;
        Ok(Request { expression, prime, muladd, asked: None })
    }
}

impl Asked {
    fn from_words(kind: &str, id: &str) -> Result<Asked, String> {
        let byte = match hex::decode(kind)?[..] {
            [byte] => byte,
            _ => return Err("a kind is two hex digits".to_string()),
        };
        let kind = Kind::results()
            .find(|kind| kind.byte() == byte)
            .ok_or_else(|| format!("no result has kind {:02x}", byte))?;
        Ok(Asked { kind, id: number(id, "an id")? })
    }
}

/// Whether a line, with its line feed or none, is hexadecimal.
fn is_frame(line: &str) -> bool {
    hex::decode(line.strip_suffix('\n').unwrap_or(line)).is_ok()
}

fn number(word: &str, name: &str) -> Result<u16, String> {
    let wrong = || format!("{} is a decimal number up to 65535, not {:?}", name, word);
    if !word.bytes().all(|digit| digit.is_ascii_digit()) {
        return Err(wrong());
    }
    word.parse().map_err(|_| wrong())
}

fn bit(word: &str, name: &str) -> Result<bool, String> {
    match word {
        "0" => Ok(false),
        "1" => Ok(true),
        _ => Err(format!("{} is 0 or 1, not {:?}", name, word)),
    }
}

impl fmt::Display for Command {
    fn fmt(&self, f: &mut fmt::Formatter<'_>) -> fmt::Result {
        match self {
            Command::Build => f.write_str("build"),
            Command::Request(request) => request.fmt(f),
        }
    }
}

impl fmt::Display for Request {
    fn fmt(&self, f: &mut fmt::Formatter<'_>) -> fmt::Result {
        let (prime, muladd) = (u8::from(self.prime), u8::from(self.muladd));
        write!(f, "request {} {} {}", self.expression, prime, muladd)?;
        match self.asked {
            Some(asked) => write!(f, " {:02x} {}", asked.kind.byte(), asked.id),
            None => Ok(()),
        }
    }
}

/// The script as it is read, one line after the other.
impl fmt::Display for Script {
    fn fmt(&self, f: &mut fmt::Formatter<'_>) -> fmt::Result {
        for node in self.pool.nodes() {
            writeln!(f, "{}", hex::encode(&node.frame()))?;
        }
        for expression in self.pool.expressions() {
            writeln!(f, "{}", hex::encode(&expression.frame()))?;
        }
        for command in &self.commands {
            writeln!(f, "{}", command)?;
        }
        Ok(())
    }
}

#[cfg(test)]
mod tests {
    use super::*;

    const PRODUCT: &str = "011000000000\n011000000100\n01030000000200000001\n02000205\n";

    fn parse(text: &str) -> Result<Script, TextFault> {
        Script::parse(numbered(text))
    }

    fn fault(text: &str) -> String {
        parse(text).expect_err(text).to_string()
    }

    #[test]
    fn a_script_is_written_as_it_was_read() {
        let text = format!("{}request 0 1 0\nrequest 0 0 1 21 65535\nbuild\n", PRODUCT);
        let script = parse(&text).unwrap();
        assert_eq!(script.to_string(), text);
        assert_eq!(script.pool.nodes().len(), 3);
        assert_eq!(script.pool.expressions()[0].flags.byte(), 5);
    }

    #[test]
    fn a_request_frame_is_a_request() {
        let frames = parse(&format!("{}0300000001\n0301ff0100", PRODUCT)).unwrap();
        let words = parse(&format!("{}request 0 0 1\nrequest 511 1 0", PRODUCT)).unwrap();
        assert_eq!(frames, words);
    }

    #[test]
    fn frames_lead_back_to_their_script() {
        let text = format!("{}0300000001\n0301ff0100\n", PRODUCT);
        let script = Script::from_frames(&text).unwrap();
        assert_eq!(script.frames(), text);
        assert_eq!(Script::from_frames(&text[..text.len() - 1]).unwrap(), script);
        for other in ["build\n", "\n", "# none\n", "request 0 0 0\n", "0300000001\r\n"] {
            let fault = Script::from_frames(other).expect_err(other).to_string();
            assert_eq!(fault, "line 1: a frame comes here");
        }
    }

    #[test]
    fn comments_and_empty_lines_count_as_lines() {
        assert_eq!(parse("# only\n\n").unwrap(), Script::default());
        assert_eq!(fault("# one\n\nbuilt\n"), "line 3: hexadecimal comes in pairs of digits");
    }

    #[test]
    fn malformed_lines_are_named() {
        let cases = [
            ("nonsense", "line 1: not a command, nor lower-case hexadecimal"),
            ("0110000000", "line 1: the frame ends too early"),
            ("01100000000000", "line 1: the frame is 1 bytes too long"),
            ("012000000000", "line 1: no node has kind 20"),
            ("011002000000", "line 1: next is 0 or 1, not 2"),
            ("011a00000100", "line 1: x has no id, so it is 0"),
            ("0114000000000100000000000000000", "line 1: hexadecimal comes in pairs of digits"),
            ("011400000000010000000000000000", "line 1: minus zero does not exist"),
            ("011000000000\n01050000000100000080000000\n", "line 2: the frame ends too early"),
            ("011000000000\n0105000000010000008000000000000000", "line 2: addc takes an i64"),
            ("011000000000\n0101000000010000", "line 2: add has 2 children"),
            ("0107000000010000", "line 1: node 0 does not come earlier"),
            ("011000000000\n01010000000200000000", "line 2: node 0 is used twice"),
            ("011000000000\n02000000\n02000000", "line 3: node 0 is used twice"),
            ("02000000", "line 1: node 0 does not come earlier"),
            ("011000000000\n02000008", "line 2: flags are at most 7"),
            ("04", "line 1: no frame begins with 04"),
            (
                "011000000000\n02000000\n011000000000",
                "line 3: node frames come before what is here already",
            ),
            (
                "011000000000\nbuild\n02000000",
                "line 3: expression frames come before what is here already",
            ),
            ("011200000100\n02000000", "line 1: there is no expression 1"),
            ("011200000000\n02000000", "line 1: exp leaves form a cycle"),
            ("request 0 2 0", "line 1: a prime is 0 or 1, not \"2\""),
            ("request 0 0", "line 1: a request is: request E P M, or request E P M KIND ID"),
            (
                "request 65536 0 0",
                "line 1: an expression is a decimal number up to 65535, not \"65536\"",
            ),
            ("request +1 0 0", "line 1: an expression is a decimal number up to 65535, not \"+1\""),
            ("request 0 0 0 14 0", "line 1: no result has kind 14"),
            ("request 0 0 0 01 0", "line 1: no result has kind 01"),
            ("0300000002", "line 1: muladd is 0 or 1, not 2"),
        ];
        for (text, expected) in cases {
            assert_eq!(fault(text), expected, "{}", text);
        }
    }

    #[test]
    fn two_expressions_may_not_read_each_other() {
        assert_eq!(
            fault("011200000100\n011200000000\n02000000\n02000100"),
            "line 1: exp leaves form a cycle"
        );
        assert!(parse("011200000100\n011000000000\n02000000\n02000100").is_ok());
    }
}

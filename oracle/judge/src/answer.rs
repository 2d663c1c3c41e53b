//! Answers, and how they are written.
//!
//! ```text
//! ok                       a request was accepted; then
//! counter N                  temporaries used
//! marks P Q                  a digit for each expression: has it a mark, plain and primed
//! blocks E:P:S E:P:S ..      expression, prime and steps of each block in order
//! refused N                a request was refused, with the number of document 01
//! first HEX                a build: a line for each step of the first list,
//! i HEX                      of the i list,
//! last HEX                   and of the last list, in document 01's output encoding; then
//! counter N
//! marks P Q                  as they stand after the build
//! ```
//!
//! What is empty is written `-`.

use crate::hex;
use crate::kinds::{Kind, Refusal, Step};
use crate::literal::Literal;
use original::starkinfo_codegen as code;
use std::fmt;

const NOTHING: &str = "-";

#[derive(Clone, Debug, PartialEq, Eq)]
pub enum Answer {
    Accepted { state: State, blocks: Vec<Block> },
    Refused(Refusal),
    Built { first: Vec<StepBytes>, i: Vec<StepBytes>, last: Vec<StepBytes>, state: State },
}

/// What of a context is seen after every command.
#[derive(Clone, Debug, PartialEq, Eq)]
pub struct State {
    pub counter: usize,
    pub plain: Vec<bool>,
    pub primed: Vec<bool>,
}

#[derive(Clone, Copy, Debug, PartialEq, Eq)]
pub struct Block {
    pub expression: usize,
    pub prime: bool,
    pub steps: usize,
}

/// A step in document 01's output encoding: step, destination, source count, sources.
#[derive(Clone, Debug, PartialEq, Eq)]
pub struct StepBytes(Vec<u8>);

impl StepBytes {
    /// Fails where the original made something that the encoding cannot carry.
    pub fn of(section: &code::Section) -> Result<StepBytes, String> {
        let step = Step::from_word(&section.op).ok_or_else(|| no_room("step", section))?;
        let count = u8::try_from(section.src.len()).map_err(|_| no_room("step", section))?;
        let mut bytes = vec![step.byte()];
        write_reference(&section.dest, &mut bytes)?;
        bytes.push(count);
        for source in &section.src {
            write_reference(source, &mut bytes)?;
        }
        Ok(StepBytes(bytes))
    }

    /// A step that is encoded already.
    pub fn encoded(bytes: Vec<u8>) -> StepBytes {
        StepBytes(bytes)
    }

    pub fn bytes(&self) -> &[u8] {
        &self.0
    }

    pub fn is(&self, step: Step) -> bool {
        self.0[0] == step.byte()
    }
}

/// A reference: kind, id, prime, and for number its literal.
fn write_reference(node: &code::Node, bytes: &mut Vec<u8>) -> Result<(), String> {
    let fault = || no_room("reference", node);
    // Generation sets none of these; fixing and dimensions, which do, come later.
    if (node.dim, node.tree_pos, node.p, node.exp_id) != (0, 0, 0, 0) {
        return Err(fault());
    }
    let kind = Kind::from_reference_word(&node.type_).ok_or_else(fault)?;
    let id = u16::try_from(node.id).map_err(|_| fault())?;
    bytes.push(kind.byte());
    bytes.extend(id.to_be_bytes());
    bytes.push(u8::from(node.prime));
    match (kind, &node.value) {
        (Kind::NUMBER, Some(text)) => {
            bytes.extend(Literal::from_decimal(text).ok_or_else(fault)?.bytes());
            Ok(())
        }
        (Kind::NUMBER, None) | (_, Some(_)) => Err(fault()),
        (_, None) => Ok(()),
    }
}

fn no_room(what: &str, it: &dyn fmt::Debug) -> String {
    format!("document 01 has no encoding for the original's {} {:?}", what, it)
}

impl Answer {
    /// After a refusal the original's context is no longer one to go on with.
    pub fn is_refusal(&self) -> bool {
        matches!(self, Answer::Refused(_))
    }
}

impl fmt::Display for Answer {
    fn fmt(&self, f: &mut fmt::Formatter<'_>) -> fmt::Result {
        match self {
            Answer::Accepted { state, blocks } => {
                writeln!(f, "ok\n{}", state)?;
                let blocks: Vec<String> = blocks.iter().map(Block::to_string).collect();
                writeln!(f, "blocks {}", or_nothing(blocks.join(" ")))
            }
            Answer::Refused(refusal) => writeln!(f, "refused {}", refusal.number()),
            Answer::Built { first, i, last, state } => {
                for (name, list) in [("first", first), ("i", i), ("last", last)] {
                    for step in list {
                        writeln!(f, "{} {}", name, step)?;
                    }
                }
                writeln!(f, "{}", state)
            }
        }
    }
}

impl fmt::Display for StepBytes {
    fn fmt(&self, f: &mut fmt::Formatter<'_>) -> fmt::Result {
        f.write_str(&hex::encode(&self.0))
    }
}

impl fmt::Display for State {
    fn fmt(&self, f: &mut fmt::Formatter<'_>) -> fmt::Result {
        let (plain, primed) = (digits(&self.plain), digits(&self.primed));
        write!(f, "counter {}\nmarks {} {}", self.counter, plain, primed)
    }
}

impl fmt::Display for Block {
    fn fmt(&self, f: &mut fmt::Formatter<'_>) -> fmt::Result {
        write!(f, "{}:{}:{}", self.expression, u8::from(self.prime), self.steps)
    }
}

fn digits(marks: &[bool]) -> String {
    or_nothing(marks.iter().map(|&mark| if mark { '1' } else { '0' }).collect())
}

fn or_nothing(text: String) -> String {
    if text.is_empty() {
        NOTHING.to_string()
    } else {
        text
    }
}

#[cfg(test)]
mod tests {
    use super::*;

    fn reference(kind: Kind, id: usize, prime: bool) -> code::Node {
        code::Node::new(kind.word().to_string(), id, None, 0, prime, 0)
    }

    fn number(text: &str) -> code::Node {
        code::Node { value: Some(text.to_string()), ..reference(Kind::NUMBER, 0, false) }
    }

    fn encoded(op: &str, dest: code::Node, src: Vec<code::Node>) -> Result<String, String> {
        let section = code::Section { op: op.to_string(), dest, src };
        StepBytes::of(&section).map(|step| step.to_string())
    }

    #[test]
    fn steps_are_encoded_as_document_01_prints_them() {
        let (cm0, cm1) = (reference(Kind::CM, 0, false), reference(Kind::CM, 1, false));
        let (exp, tmp) = (reference(Kind::EXP, 0, false), reference(Kind::TMP, 0, false));
        let const0 = reference(Kind::CONST, 0, true);
        assert_eq!(
            encoded("muladd", exp.clone(), vec![cm0.clone(), cm1.clone(), const0.clone()]).unwrap(),
            "041200000003100000001000010011000001"
        );
        assert_eq!(
            encoded("mul", tmp.clone(), vec![cm0, cm1]).unwrap(),
            "0320000000021000000010000100"
        );
        assert_eq!(encoded("add", exp, vec![tmp, const0]).unwrap(), "0112000000022000000011000001");
    }

    #[test]
    fn a_number_carries_its_literal() {
        let f = reference(Kind::F, 65535, true);
        assert_eq!(
            encoded("copy", f.clone(), vec![number("-18446744073709551615")]).unwrap(),
            "0821ffff01011400000001ffffffffffffffff"
        );
        assert_eq!(
            encoded("sub", f, vec![number("0"), reference(Kind::X, 0, false)]).unwrap(),
            "0221ffff01021400000000".to_string() + "0000000000000000" + "1a000000"
        );
    }

    #[test]
    fn what_has_no_encoding_is_a_fault() {
        let cm = reference(Kind::CM, 0, false);
        let decorated = code::Node { dim: 1, ..cm.clone() };
        let wordless = code::Node { value: None, ..number("0") };
        let valued = code::Node { value: Some("1".to_string()), ..cm.clone() };
        assert!(encoded("div", cm.clone(), vec![]).is_err());
        for wrong in [decorated, wordless, valued, number("0x10"), number("-0")] {
            assert!(encoded("copy", cm.clone(), vec![wrong.clone()]).is_err(), "{:?}", wrong);
        }
        assert!(encoded("copy", reference(Kind::CM, 65536, false), vec![]).is_err());
        let strange = code::Node { type_: "imP".to_string(), ..cm };
        assert!(encoded("copy", strange, vec![]).is_err());
    }

    #[test]
    fn empty_parts_are_written_as_a_dash() {
        let state = State { counter: 0, plain: vec![], primed: vec![] };
        let built = Answer::Built { first: vec![], i: vec![], last: vec![], state: state.clone() };
        assert_eq!(built.to_string(), "counter 0\nmarks - -\n");
        let accepted = Answer::Accepted { state, blocks: vec![] };
        assert_eq!(accepted.to_string(), "ok\ncounter 0\nmarks - -\nblocks -\n");
    }
}

//! Segments: three lists of steps and a counter, every field of every reference, as the original
//! holds them and as text.
//!
//! ```text
//! counter N                the temporaries used
//! first DEST = OP SRC ..   a step of the first list; `i` and `last` likewise
//! ```
//!
//! A reference is `KIND:ID`, with `'` where it is primed, and a number `number:LITERAL`. Then, after
//! `@`, those of its other fields that are not 0: `d` dimension, `p`, `t` tree_pos, `e` exp_id. A
//! step byte that document 01 does not know is `step` with its two digits.

use asked::text::number;
use judge::answer::StepBytes;
use judge::hex::Reader;
use judge::kinds::{self, Kind};
use judge::literal::{self, Literal};
use original::starkinfo_codegen as code;
use std::fmt;

/// The most sources that a step's record has.
pub const MAX_SOURCES: usize = 3;

#[derive(Clone, Copy, Debug, PartialEq, Eq)]
pub struct Reference {
    pub kind: Kind,
    pub id: usize,
    pub prime: bool,
    pub dim: usize,
    pub p: usize,
    pub tree_pos: usize,
    pub exp_id: usize,
    /// Of a number, which has no id.
    pub literal: Option<Literal>,
}

impl Reference {
    pub fn new(kind: Kind, id: usize) -> Reference {
        Reference { kind, id, prime: false, dim: 0, p: 0, tree_pos: 0, exp_id: 0, literal: None }
    }

    pub fn number(literal: Literal) -> Reference {
        Reference { literal: Some(literal), ..Reference::new(Kind::NUMBER, 0) }
    }

    pub fn primed(self) -> Reference {
        Reference { prime: true, ..self }
    }

    /// Kind, id, prime, and a number's literal, as document 01 writes them.
    fn read(reader: &mut Reader<'_>) -> Result<Reference, String> {
        let byte = reader.u8()?;
        let kind = Kind::references()
            .find(|kind| kind.byte() == byte)
            .ok_or_else(|| format!("no reference has kind {:02x}", byte))?;
        let id = usize::from(reader.u16()?);
        let prime = reader.bit("a prime")?;
        let literal = match kind {
            Kind::NUMBER => Some(literal::read(reader)?),
            _ => None,
        };
        Ok(Reference { prime, literal, ..Reference::new(kind, id) })
    }

    fn to_original(self) -> code::Node {
        code::Node {
            type_: self.kind.word().to_string(),
            id: self.id,
            value: self.literal.map(|literal| literal.to_string()),
            dim: self.dim,
            prime: self.prime,
            tree_pos: self.tree_pos,
            p: self.p,
            exp_id: self.exp_id,
        }
    }

    fn from_original(node: &code::Node) -> Result<Reference, String> {
        let kind = Kind::from_reference_word(&node.type_)
            .ok_or_else(|| format!("the original made a reference {:?}", node))?;
        let literal = node.value.as_ref().and_then(|text| Literal::from_decimal(text));
        Ok(Reference {
            kind,
            id: node.id,
            prime: node.prime,
            dim: node.dim,
            p: node.p,
            tree_pos: node.tree_pos,
            exp_id: node.exp_id,
            literal,
        })
    }
}

#[derive(Clone, Debug, PartialEq, Eq)]
pub struct Step {
    /// Its byte, which need not be one of document 01's.
    pub op: u8,
    pub dest: Reference,
    pub src: Vec<Reference>,
}

impl Step {
    pub fn known(&self) -> Option<kinds::Step> {
        kinds::Step::from_byte(self.op)
    }

    fn word(&self) -> String {
        match self.known() {
            Some(step) => step.word().to_string(),
            None => format!("step{:02x}", self.op),
        }
    }

    /// A step of a list that generation made.
    pub fn generated(bytes: &StepBytes) -> Result<Step, String> {
        let mut reader = Reader::new(bytes.bytes());
        let op = reader.u8()?;
        let dest = Reference::read(&mut reader)?;
        let count = reader.u8()?;
        let src = (0..count).map(|_| Reference::read(&mut reader)).collect::<Result<_, _>>()?;
        reader.end()?;
        Ok(Step { op, dest, src })
    }

    fn to_original(&self) -> code::Section {
        code::Section {
            op: self.word(),
            dest: self.dest.to_original(),
            src: self.src.iter().map(|source| source.to_original()).collect(),
        }
    }

    /// The same step as the original now holds it.
    fn after(&self, section: &code::Section) -> Result<Step, String> {
        if section.op != self.word() || section.src.len() != self.src.len() {
            return Err(format!("the original made of `{}` the step {:?}", self, section));
        }
        Ok(Step {
            op: self.op,
            dest: Reference::from_original(&section.dest)?,
            src: section.src.iter().map(Reference::from_original).collect::<Result<_, _>>()?,
        })
    }
}

#[derive(Clone, Debug, Default, PartialEq, Eq)]
pub struct Segment {
    pub counter: usize,
    pub first: Vec<Step>,
    pub i: Vec<Step>,
    pub last: Vec<Step>,
}

impl Segment {
    pub fn lists(&self) -> [(&'static str, &[Step]); 3] {
        [("first", &self.first), ("i", &self.i), ("last", &self.last)]
    }

    /// The steps of all lists, in the order of the walks.
    pub fn steps(&self) -> impl Iterator<Item = &Step> {
        self.first.iter().chain(&self.i).chain(&self.last)
    }

    pub fn to_original(&self) -> code::Segment {
        let list = |steps: &[Step]| steps.iter().map(Step::to_original).collect();
        code::Segment {
            first: list(&self.first),
            i: list(&self.i),
            last: list(&self.last),
            tmp_used: self.counter,
        }
    }

    /// The same segment as the original now holds it.
    pub fn after(&self, segment: &code::Segment) -> Result<Segment, String> {
        Ok(Segment {
            counter: segment.tmp_used,
            first: list_after(&self.first, &segment.first)?,
            i: list_after(&self.i, &segment.i)?,
            last: list_after(&self.last, &segment.last)?,
        })
    }

    /// Takes a line of its text, after any that came before. False if it is no such line.
    pub fn take_line(&mut self, line: &str) -> Result<bool, String> {
        let (head, rest) = line.split_once(' ').unwrap_or((line, ""));
        let list = match head {
            "counter" => {
                self.counter = number(rest)?;
                return Ok(true);
            }
            "first" => &mut self.first,
            "i" => &mut self.i,
            "last" => &mut self.last,
            _ => return Ok(false),
        };
        list.push(step(rest)?);
        Ok(true)
    }
}

fn list_after(steps: &[Step], sections: &[code::Section]) -> Result<Vec<Step>, String> {
    if steps.len() != sections.len() {
        return Err(format!("the original made {} steps of {}", sections.len(), steps.len()));
    }
    steps.iter().zip(sections).map(|(step, section)| step.after(section)).collect()
}

fn step(text: &str) -> Result<Step, String> {
    let words: Vec<&str> = text.split(' ').collect();
    match words[..] {
        [dest, "=", op, ref src @ ..] if src.len() <= MAX_SOURCES => Ok(Step {
            op: op_byte(op)?,
            dest: reference(dest)?,
            src: src.iter().map(|word| reference(word)).collect::<Result<_, _>>()?,
        }),
        _ => Err(format!("a step is: DEST = OP, and up to {} sources", MAX_SOURCES)),
    }
}

fn op_byte(word: &str) -> Result<u8, String> {
    let unknown = || word.strip_prefix("step").and_then(|byte| u8::from_str_radix(byte, 16).ok());
    kinds::Step::from_word(word)
        .map(kinds::Step::byte)
        .or_else(unknown)
        .ok_or_else(|| format!("{:?} is no step", word))
}

fn reference(word: &str) -> Result<Reference, String> {
    let fault = || format!("{:?} is no reference", word);
    let (head, fields) = word.split_once('@').unwrap_or((word, ""));
    let (plain, prime) = match head.strip_suffix('\'') {
        Some(plain) => (plain, true),
        None => (head, false),
    };
    let (kind, value) = plain.split_once(':').ok_or_else(fault)?;
    let kind = Kind::from_reference_word(kind).ok_or_else(fault)?;
    let plain = match kind {
        Kind::NUMBER => Reference::number(Literal::from_decimal(value).ok_or_else(fault)?),
        _ => Reference::new(kind, number(value)?),
    };
    let mut reference = Reference { prime, ..plain };
    for field in fields.split(',').filter(|field| !field.is_empty()) {
        let place = match field.get(..1) {
            Some("d") => &mut reference.dim,
            Some("p") => &mut reference.p,
            Some("t") => &mut reference.tree_pos,
            Some("e") => &mut reference.exp_id,
            _ => return Err(fault()),
        };
        *place = number(&field[1..])?;
    }
    Ok(reference)
}

impl fmt::Display for Reference {
    fn fmt(&self, f: &mut fmt::Formatter<'_>) -> fmt::Result {
        match self.literal {
            Some(literal) => write!(f, "{}:{}", self.kind.word(), literal)?,
            None => write!(f, "{}:{}", self.kind.word(), self.id)?,
        }
        if self.prime {
            f.write_str("'")?;
        }
        let fields = [("d", self.dim), ("p", self.p), ("t", self.tree_pos), ("e", self.exp_id)];
        let set = fields.iter().filter(|(_, value)| *value != 0);
        for (place, (name, value)) in set.enumerate() {
            write!(f, "{}{}{}", if place == 0 { "@" } else { "," }, name, value)?;
        }
        Ok(())
    }
}

impl fmt::Display for Step {
    fn fmt(&self, f: &mut fmt::Formatter<'_>) -> fmt::Result {
        write!(f, "{} = {}", self.dest, self.word())?;
        self.src.iter().try_for_each(|source| write!(f, " {}", source))
    }
}

impl fmt::Display for Segment {
    fn fmt(&self, f: &mut fmt::Formatter<'_>) -> fmt::Result {
        writeln!(f, "counter {}", self.counter)?;
        for (name, list) in self.lists() {
            for step in list {
                writeln!(f, "{} {}", name, step)?;
            }
        }
        Ok(())
    }
}

#[cfg(test)]
mod tests {
    use super::*;

    const TEXT: &str = "\
counter 4
first exp:0 = add exp:1 exp:1'
first tmp:3@d1 = copy number:-5
i tree1:0'@d3,p2,t7 = muladd tmpExp:65535 tmp:1@e9 Zi:0
last f:0 = step05
";

    fn parsed(text: &str) -> Segment {
        let mut segment = Segment::default();
        for line in text.lines() {
            assert_eq!(segment.take_line(line), Ok(true), "{}", line);
        }
        segment
    }

    #[test]
    fn a_segment_is_written_as_it_was_read() {
        let segment = parsed(TEXT);
        assert_eq!(segment.to_string(), TEXT);
        assert_eq!(segment.first[1].src, [Reference::number((-5).into())]);
        assert_eq!(segment.i[0].dest.tree_pos, 7);
        assert_eq!(segment.last[0].known(), None);
    }

    #[test]
    fn the_original_holds_every_field() {
        let segment = parsed(TEXT);
        assert_eq!(segment.after(&segment.to_original()), Ok(segment));
    }

    #[test]
    fn malformed_lines_are_refused() {
        let mut segment = Segment::default();
        for line in [
            "first",
            "first cm:0 = add cm:0 cm:0 cm:0 cm:0",
            "i cm0 = copy cm:0",
            "last add:0 = copy cm:0",
            "i cm:0 = add cm:0@x1",
            "counter -1",
            "i f:0 = div",
        ] {
            assert!(segment.take_line(line).is_err(), "{}", line);
        }
        assert_eq!(segment.take_line("middle cm:0 = copy cm:1"), Ok(false));
    }
}

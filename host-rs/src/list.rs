//! Lists of steps: records of 52 bytes, and what they say.

use crate::frames::Frames;
use crate::kinds::{ReferenceKind, StepKind};
use crate::refusal::Refusal;
use enonkasse_literal::Literal;
use enonkasse_sys::{MAX_SOURCES, REFERENCE_SIZE};
use std::fmt;

pub use enonkasse_sys::STEP_SIZE;

const NO_ORIGIN: u16 = enonkasse_sys::NO_ORIGIN as u16;

/// A cell or a literal that a step reads or writes.
#[derive(Clone, Copy, Debug, PartialEq, Eq, Hash)]
pub struct Reference {
    /// What it points to.
    pub kind: ReferenceKind,
    /// Whether at the next row.
    pub prime: bool,
    /// The number among its kind.
    pub id: u16,
    /// The dimension, where a pass gave one.
    pub dimension: u16,
    /// The record of a fixed column.
    pub p: u16,
    /// The position in a tree.
    pub tree_pos: u16,
    /// The expression of a temporary that fixing made; for a number the node that brought it.
    pub extra: u16,
    /// That of a number.
    pub literal: Option<Literal>,
}

impl Reference {
    /// To a cell at this row.
    pub fn new(kind: ReferenceKind, id: u16) -> Reference {
        let (prime, literal) = (false, None);
        Reference { kind, prime, id, dimension: 0, p: 0, tree_pos: 0, extra: 0, literal }
    }

    /// The same at the next row.
    #[must_use]
    pub fn primed(self) -> Reference {
        Reference { prime: true, ..self }
    }

    fn write(&self, bytes: &mut Vec<u8>) {
        bytes.extend([self.kind.byte(), u8::from(self.prime)]);
        for number in [self.id, self.dimension, self.p, self.tree_pos, self.extra] {
            bytes.extend(number.to_be_bytes());
        }
    }

    fn read(bytes: &[u8], frames: &Frames) -> Option<Reference> {
        let number = |at: usize| u16::from_be_bytes([bytes[at], bytes[at + 1]]);
        let kind = ReferenceKind::from_byte(bytes[0])?;
        let prime = [false, true].get(usize::from(bytes[1])).copied()?;
        let extra = number(10);
        let literal = match kind {
            ReferenceKind::Number => Some(frames.literal(extra)),
            _ => None,
        };
        let (dimension, p, tree_pos) = (number(4), number(6), number(8));
        Some(Reference { kind, prime, id: number(2), dimension, p, tree_pos, extra, literal })
    }
}

/// `cm:1'`, `number:-5`; behind `@` those of dimension, p, tree position and expression that are
/// not 0, after `d`, `p`, `t` and `e`.
impl fmt::Display for Reference {
    fn fmt(&self, f: &mut fmt::Formatter<'_>) -> fmt::Result {
        match self.literal {
            Some(literal) => write!(f, "{}:{}", self.kind, literal)?,
            None => write!(f, "{}:{}", self.kind, self.id)?,
        }
        if self.prime {
            f.write_str("'")?;
        }
        let expression = if self.literal.is_some() { 0 } else { self.extra };
        let fields =
            [('d', self.dimension), ('p', self.p), ('t', self.tree_pos), ('e', expression)];
        let shown = fields.iter().filter(|(_, number)| *number != 0);
        for (place, (letter, number)) in shown.enumerate() {
            write!(f, "{}{}{}", if place == 0 { '@' } else { ',' }, letter, number)?;
        }
        Ok(())
    }
}

/// A step of a list.
#[derive(Clone, Debug, PartialEq, Eq, Hash)]
pub struct Step {
    /// What it does.
    pub kind: StepKind,
    /// The node it comes from, where one is known.
    pub origin: Option<u16>,
    /// What it writes.
    pub destination: Reference,
    /// What it reads.
    pub sources: Vec<Reference>,
}

impl Step {
    /// A step that no node is known for.
    pub fn new(kind: StepKind, destination: Reference, sources: &[Reference]) -> Step {
        Step { kind, origin: None, destination, sources: sources.to_vec() }
    }

    fn record(&self) -> Vec<u8> {
        assert!(self.sources.len() <= MAX_SOURCES, "a step has at most three sources");
        let mut bytes = vec![self.kind.byte(), self.sources.len() as u8];
        bytes.extend(self.origin.unwrap_or(NO_ORIGIN).to_be_bytes());
        self.destination.write(&mut bytes);
        self.sources.iter().for_each(|source| source.write(&mut bytes));
        bytes.resize(STEP_SIZE, 0);
        bytes
    }

    fn read(record: &[u8], frames: &Frames) -> Option<Step> {
        let count = usize::from(record[1]);
        if count > MAX_SOURCES {
            return None;
        }
        let mut references =
            record[4..].chunks(REFERENCE_SIZE).map(|bytes| Reference::read(bytes, frames));
        let origin = u16::from_be_bytes([record[2], record[3]]);
        Some(Step {
            kind: StepKind::from_byte(record[0])?,
            origin: Some(origin).filter(|&origin| origin != NO_ORIGIN),
            destination: references.next()??,
            sources: references.take(count).collect::<Option<_>>()?,
        })
    }
}

/// `tmp:0 = muladd cm:0 cm:1 const:0'`
impl fmt::Display for Step {
    fn fmt(&self, f: &mut fmt::Formatter<'_>) -> fmt::Result {
        write!(f, "{} = {}", self.destination, self.kind)?;
        self.sources.iter().try_for_each(|source| write!(f, " {}", source))
    }
}

/// A list of steps, as bytes.
#[derive(Clone, Debug, Default, PartialEq, Eq)]
pub struct List {
    pub(crate) bytes: Vec<u8>,
}

impl List {
    /// An empty list.
    pub fn new() -> List {
        List::default()
    }

    /// A list of these steps.
    ///
    /// # Panics
    ///
    /// Where a step has more than three sources.
    pub fn of(steps: &[Step]) -> List {
        List { bytes: steps.iter().flat_map(Step::record).collect() }
    }

    /// How many steps it has.
    pub fn len(&self) -> usize {
        self.bytes.len() / STEP_SIZE
    }

    /// Whether it has none.
    pub fn is_empty(&self) -> bool {
        self.bytes.is_empty()
    }

    /// Its records.
    pub fn bytes(&self) -> &[u8] {
        &self.bytes
    }

    /// A list of these records, whatever they say.
    pub fn from_bytes(bytes: Vec<u8>) -> List {
        List { bytes }
    }

    /// Its steps, their literals read from the frames of its pool.
    ///
    /// # Errors
    ///
    /// [`Refusal::Malformed`] where a record is no step, which those of the library all are.
    pub fn steps(&self, frames: &Frames) -> Result<Vec<Step>, Refusal> {
        if self.bytes.len() % STEP_SIZE != 0 {
            return Err(Refusal::Malformed);
        }
        let steps = self.bytes.chunks(STEP_SIZE).map(|record| Step::read(record, frames));
        steps.collect::<Option<_>>().ok_or(Refusal::Malformed)
    }
}

/// What a build leaves: three lists, and how many temporaries they use.
#[derive(Clone, Debug, Default, PartialEq, Eq)]
pub struct Segment {
    /// Every block in order.
    pub first: List,
    /// Without the blocks of kept expressions at this row.
    pub i: List,
    /// Without the blocks of kept expressions.
    pub last: List,
    /// The temporaries used, at most 65,535.
    pub counter: usize,
}

#[cfg(test)]
mod tests {
    use super::*;

    #[test]
    fn a_step_is_read_back() {
        let reference = Reference {
            prime: true,
            dimension: 3,
            p: 0x102,
            tree_pos: 7,
            extra: 9,
            ..Reference::new(ReferenceKind::Tree4, 0xabcd)
        };
        let number = Reference {
            extra: 2,
            literal: Some(Literal::default()),
            ..Reference::new(ReferenceKind::Number, 0)
        };
        let tmp = Reference::new(ReferenceKind::Tmp, 1);
        let steps = [
            Step::new(StepKind::MulAdd, tmp, &[reference, number, tmp]),
            Step { origin: Some(5), ..Step::new(StepKind::Copy, tmp, &[reference]) },
        ];
        let list = List::of(&steps);
        assert_eq!(list.len(), 2);
        assert_eq!(list.steps(&Frames::new()), Ok(steps.to_vec()));
        let shown = "tmp:1 = muladd tree4:43981'@d3,p258,t7,e9 number:0 tmp:1";
        assert_eq!(steps[0].to_string(), shown);
    }

    #[test]
    fn what_is_no_step_is_malformed() {
        let tmp = Reference::new(ReferenceKind::Tmp, 1);
        let list = List::of(&[Step::new(StepKind::Copy, tmp, &[tmp])]);
        for (at, byte) in [(0, 5), (1, 4), (4, 0), (5, 2), (16, 0x29)] {
            let mut bytes = list.bytes().to_vec();
            bytes[at] = byte;
            let steps = List::from_bytes(bytes).steps(&Frames::new());
            assert_eq!(steps, Err(Refusal::Malformed), "{}", at);
        }
        let short = List::from_bytes(list.bytes()[1..].to_vec());
        assert_eq!(short.steps(&Frames::new()), Err(Refusal::Malformed));
    }
}

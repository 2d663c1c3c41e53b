//! The bytes of document 01, each named once, with the original's words for them.

use crate::refusals::{DOUBLE_PRIME, NOT_THERE, NO_BLOCK, NO_PRIMED_MARK};

/// A kind of node or of reference, as its byte.
#[derive(Clone, Copy, Debug, PartialEq, Eq, PartialOrd, Ord)]
pub struct Kind(u8);

impl Kind {
    pub const ADD: Kind = Kind(0x01);
    pub const SUB: Kind = Kind(0x02);
    pub const MUL: Kind = Kind(0x03);
    pub const MULADD: Kind = Kind(0x04);
    pub const ADDC: Kind = Kind(0x05);
    pub const MULC: Kind = Kind(0x06);
    pub const NEG: Kind = Kind(0x07);
    pub const CM: Kind = Kind(0x10);
    pub const CONST: Kind = Kind(0x11);
    pub const EXP: Kind = Kind(0x12);
    pub const Q: Kind = Kind(0x13);
    pub const NUMBER: Kind = Kind(0x14);
    pub const PUBLIC: Kind = Kind(0x15);
    pub const CHALLENGE: Kind = Kind(0x16);
    pub const EVAL: Kind = Kind(0x17);
    pub const X_DIV_X_SUB_XI: Kind = Kind(0x18);
    pub const X_DIV_X_SUB_WXI: Kind = Kind(0x19);
    pub const X: Kind = Kind(0x1a);
    pub const TMP: Kind = Kind(0x20);
    pub const F: Kind = Kind(0x21);
    pub const TMP_EXP: Kind = Kind(0x22);
    pub const ZI: Kind = Kind(0x23);
    pub const TREE1: Kind = Kind(0x24);
    pub const TREE2: Kind = Kind(0x25);
    pub const TREE3: Kind = Kind(0x26);
    pub const TREE4: Kind = Kind(0x27);
    pub const Z: Kind = Kind(0x28);

    pub const OPERATIONS: [Kind; 7] =
        [Kind::ADD, Kind::SUB, Kind::MUL, Kind::MULADD, Kind::ADDC, Kind::MULC, Kind::NEG];

    pub const LEAVES: [Kind; 11] = [
        Kind::CM,
        Kind::CONST,
        Kind::EXP,
        Kind::Q,
        Kind::NUMBER,
        Kind::PUBLIC,
        Kind::CHALLENGE,
        Kind::EVAL,
        Kind::X_DIV_X_SUB_XI,
        Kind::X_DIV_X_SUB_WXI,
        Kind::X,
    ];

    /// Kinds that only references have.
    const ONLY_REFERENCES: [Kind; 9] = [
        Kind::TMP,
        Kind::F,
        Kind::TMP_EXP,
        Kind::ZI,
        Kind::TREE1,
        Kind::TREE2,
        Kind::TREE3,
        Kind::TREE4,
        Kind::Z,
    ];

    /// Every kind.
    pub fn all() -> impl Iterator<Item = Kind> {
        Kind::OPERATIONS.into_iter().chain(Kind::references())
    }

    /// Every kind that a reference may have.
    pub fn references() -> impl Iterator<Item = Kind> {
        Kind::LEAVES.into_iter().chain(Kind::ONLY_REFERENCES)
    }

    /// The kinds that may be asked for as a result.
    pub fn results() -> impl Iterator<Item = Kind> {
        Kind::references().filter(|&kind| kind != Kind::NUMBER)
    }

    pub fn byte(self) -> u8 {
        self.0
    }

    pub fn from_byte(byte: u8) -> Option<Kind> {
        Kind::all().find(|kind| kind.0 == byte)
    }

    /// The original's `op` of a node, or `type_` of a reference.
    pub fn word(self) -> &'static str {
        match self {
            Kind::ADD => "add",
            Kind::SUB => "sub",
            Kind::MUL => "mul",
            Kind::MULADD => "muladd",
            Kind::ADDC => "addc",
            Kind::MULC => "mulc",
            Kind::NEG => "neg",
            Kind::CM => "cm",
            Kind::CONST => "const",
            Kind::EXP => "exp",
            Kind::Q => "q",
            Kind::NUMBER => "number",
            Kind::PUBLIC => "public",
            Kind::CHALLENGE => "challenge",
            Kind::EVAL => "eval",
            Kind::X_DIV_X_SUB_XI => "xDivXSubXi",
            Kind::X_DIV_X_SUB_WXI => "xDivXSubWXi",
            Kind::X => "x",
            Kind::TMP => "tmp",
            Kind::F => "f",
            Kind::TMP_EXP => "tmpExp",
            Kind::ZI => "Zi",
            Kind::TREE1 => "tree1",
            Kind::TREE2 => "tree2",
            Kind::TREE3 => "tree3",
            Kind::TREE4 => "tree4",
            Kind::Z => "Z",
            Kind(byte) => unreachable!("no kind has byte {:02x}", byte),
        }
    }

    pub fn from_reference_word(word: &str) -> Option<Kind> {
        Kind::references().find(|kind| kind.word() == word)
    }

    pub fn is_operation(self) -> bool {
        Kind::OPERATIONS.contains(&self)
    }

    pub fn is_node(self) -> bool {
        self.is_operation() || Kind::LEAVES.contains(&self)
    }

    pub fn child_count(self) -> usize {
        match self {
            Kind::MULADD => 3,
            Kind::ADD | Kind::SUB | Kind::MUL => 2,
            Kind::ADDC | Kind::MULC | Kind::NEG => 1,
            _ => 0,
        }
    }

    pub fn has_literal(self) -> bool {
        matches!(self, Kind::NUMBER | Kind::ADDC | Kind::MULC)
    }

    /// Operations, number and the x kinds have no id: it is 0 in frames.
    pub fn has_id(self) -> bool {
        !self.is_operation()
            && !matches!(
                self,
                Kind::NUMBER | Kind::X_DIV_X_SUB_XI | Kind::X_DIV_X_SUB_WXI | Kind::X
            )
    }
}

/// What a step does, as its byte.
#[derive(Clone, Copy, Debug, PartialEq, Eq)]
pub struct Step(u8);

impl Step {
    pub const ADD: Step = Step(0x01);
    pub const SUB: Step = Step(0x02);
    pub const MUL: Step = Step(0x03);
    pub const MULADD: Step = Step(0x04);
    pub const COPY: Step = Step(0x08);

    pub fn byte(self) -> u8 {
        self.0
    }

    const ALL: [Step; 5] = [Step::ADD, Step::SUB, Step::MUL, Step::MULADD, Step::COPY];

    pub fn from_byte(byte: u8) -> Option<Step> {
        Step::ALL.into_iter().find(|step| step.0 == byte)
    }

    /// The step of the original's `op`.
    pub fn from_word(word: &str) -> Option<Step> {
        Step::ALL.into_iter().find(|step| step.word() == word)
    }

    /// The original's `op`.
    pub fn word(self) -> &'static str {
        match self {
            Step::ADD => "add",
            Step::SUB => "sub",
            Step::MUL => "mul",
            Step::MULADD => "muladd",
            Step::COPY => "copy",
            Step(byte) => unreachable!("no step has byte {:02x}", byte),
        }
    }

    /// Sources that the step needs.
    pub fn source_count(self) -> usize {
        match self {
            Step::COPY => 1,
            Step::MULADD => 3,
            _ => 2,
        }
    }
}

/// The refusals that the original's generation can be seen to give.
#[derive(Clone, Copy, Debug, PartialEq, Eq)]
pub enum Refusal {
    NoSuchExpression,
    DoublePrime,
    PrimedResult,
    NoBlock,
}

impl Refusal {
    pub fn number(self) -> u8 {
        match self {
            Refusal::NoSuchExpression => NOT_THERE,
            Refusal::DoublePrime => DOUBLE_PRIME,
            Refusal::PrimedResult => NO_PRIMED_MARK,
            Refusal::NoBlock => NO_BLOCK,
        }
    }
}

#[cfg(test)]
mod tests {
    use super::*;

    #[test]
    fn bytes_and_words_lead_back_to_their_kind() {
        assert_eq!(Kind::all().count(), 27);
        for kind in Kind::all() {
            assert_eq!(Kind::from_byte(kind.byte()), Some(kind));
        }
        for kind in Kind::references() {
            assert_eq!(Kind::from_reference_word(kind.word()), Some(kind));
        }
        assert_eq!(Kind::from_byte(0x08), None);
        assert_eq!(Kind::from_reference_word("add"), None);
        assert_eq!(Kind::results().count(), 19);
    }
}

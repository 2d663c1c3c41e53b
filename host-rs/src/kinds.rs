//! The kinds of nodes, references and steps, each with its byte and its name.

use crate::numbered::numbered;
use std::fmt;

/// An enum of kinds.
macro_rules! kinds {
    ($(#[$meta:meta])* $name:ident { $($kinds:tt)* }) => {
        numbered! {
            $(#[$meta])*
            $name { $($kinds)* }
            /// Its byte in frames and records.
            byte
            /// The kind of a byte, if one has it.
            from_byte
            /// Its name in the original.
            name
        }

        impl fmt::Display for $name {
            fn fmt(&self, f: &mut fmt::Formatter<'_>) -> fmt::Result {
                f.write_str(self.name())
            }
        }
    };
}

/// An enum of kinds with those that nodes and references have alike, between some and others.
macro_rules! kinds_with_leaves {
    ($(#[$meta:meta])* $name:ident { $($before:tt)* } { $($after:tt)* }) => {
        kinds! {
            $(#[$meta])*
            $name {
                $($before)*
                Cm = 0x10, "cm";
                Const = 0x11, "const";
                Exp = 0x12, "exp";
                Q = 0x13, "q";
                Number = 0x14, "number";
                Public = 0x15, "public";
                Challenge = 0x16, "challenge";
                Eval = 0x17, "eval";
                XDivXSubXi = 0x18, "xDivXSubXi";
                XDivXSubWXi = 0x19, "xDivXSubWXi";
                X = 0x1a, "x";
                $($after)*
            }
        }
    };
}

kinds_with_leaves! {
    /// What a node of a pool is: an operation or a leaf.
    NodeKind {
        Add = 0x01, "add";
        Sub = 0x02, "sub";
        Mul = 0x03, "mul";
        MulAdd = 0x04, "muladd";
        AddC = 0x05, "addc";
        MulC = 0x06, "mulc";
        Neg = 0x07, "neg";
    } {}
}

kinds_with_leaves! {
    /// What a reference of a step points to.
    ReferenceKind {} {
        Tmp = 0x20, "tmp";
        F = 0x21, "f";
        TmpExp = 0x22, "tmpExp";
        Zi = 0x23, "Zi";
        Tree1 = 0x24, "tree1";
        Tree2 = 0x25, "tree2";
        Tree3 = 0x26, "tree3";
        Tree4 = 0x27, "tree4";
        Z = 0x28, "Z";
    }
}

kinds! {
    /// What a step does.
    StepKind {
        Add = 0x01, "add";
        Sub = 0x02, "sub";
        Mul = 0x03, "mul";
        MulAdd = 0x04, "muladd";
        Copy = 0x08, "copy";
    }
}

impl NodeKind {
    /// How many children a node of this kind has; another count is refusal 2.
    pub fn child_count(self) -> usize {
        match self {
            NodeKind::MulAdd => 3,
            NodeKind::Add | NodeKind::Sub | NodeKind::Mul => 2,
            NodeKind::AddC | NodeKind::MulC | NodeKind::Neg => 1,
            _ => 0,
        }
    }

    /// Whether a node of this kind has a literal in its frame.
    pub fn has_literal(self) -> bool {
        matches!(self, NodeKind::Number | NodeKind::AddC | NodeKind::MulC)
    }
}

impl StepKind {
    /// How many sources a step of this kind reads.
    pub fn source_count(self) -> usize {
        match self {
            StepKind::Copy => 1,
            StepKind::MulAdd => 3,
            StepKind::Add | StepKind::Sub | StepKind::Mul => 2,
        }
    }
}

#[cfg(test)]
mod tests {
    use super::*;

    #[test]
    fn bytes_are_read_back() {
        let nodes = (0..=u8::MAX).filter_map(NodeKind::from_byte);
        assert!(nodes.eq(NodeKind::ALL.iter().copied()));
        let references = (0..=u8::MAX).filter_map(ReferenceKind::from_byte);
        assert!(references.eq(ReferenceKind::ALL.iter().copied()));
        let steps = (0..=u8::MAX).filter_map(StepKind::from_byte);
        assert!(steps.eq(StepKind::ALL.iter().copied()));
        assert!(NodeKind::ALL.iter().all(|kind| NodeKind::from_byte(kind.byte()) == Some(*kind)));
    }

    #[test]
    fn there_are_as_many_as_in_document_01() {
        let counts = [NodeKind::ALL.len(), ReferenceKind::ALL.len(), StepKind::ALL.len()];
        assert_eq!(counts, [18, 20, 5]);
    }
}

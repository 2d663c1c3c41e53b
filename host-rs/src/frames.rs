//! Frames as the library reads them, each behind its length.

use crate::kinds::NodeKind;
use crate::pool::Request;
use enonkasse_literal::{self as literal, Literal};

/// Frames of document 01 one behind the other: nodes, then expressions, then requests.
#[derive(Clone, Debug, Default, PartialEq, Eq)]
pub struct Frames {
    bytes: Vec<u8>,
    starts: Vec<usize>,
}

const NODE: u8 = 0x01;
const EXPRESSION: u8 = 0x02;

/// The bytes that say how long a frame is.
const LENGTH: usize = 2;

impl Frames {
    /// No frame.
    pub fn new() -> Frames {
        Frames::default()
    }

    /// Adds a frame as it is.
    ///
    /// # Panics
    ///
    /// Where it has more than 65,535 bytes.
    pub fn push(&mut self, frame: &[u8]) {
        let size = u16::try_from(frame.len()).expect("a frame of at most 65,535 bytes");
        self.starts.push(self.bytes.len());
        self.bytes.extend(size.to_be_bytes());
        self.bytes.extend(frame);
    }

    /// Those that the library wrote.
    pub(crate) fn from_bytes(bytes: Vec<u8>) -> Frames {
        let mut starts = Vec::new();
        let mut at = 0;
        while let Some(&[high, low]) = bytes.get(at..at + LENGTH) {
            starts.push(at);
            at += LENGTH + usize::from(u16::from_be_bytes([high, low]));
        }
        Frames { bytes, starts }
    }

    /// The same with requests behind.
    #[must_use]
    pub fn with_requests(&self, requests: &[Request]) -> Frames {
        let mut frames = self.clone();
        requests.iter().for_each(|request| frames.push(&request.frame()));
        frames
    }

    /// As the library reads them: each behind its length in two bytes.
    pub fn bytes(&self) -> &[u8] {
        &self.bytes
    }

    /// How many of them are expressions.
    pub(crate) fn expression_count(&self) -> usize {
        self.starts
            .iter()
            .filter(|&&start| self.bytes.get(start + LENGTH) == Some(&EXPRESSION))
            .count()
    }

    /// The literal that a node brings to a list: 0 where it has none.
    pub fn literal(&self, node: u16) -> Literal {
        self.literal_of(usize::from(node)).unwrap_or_default()
    }

    fn literal_of(&self, node: usize) -> Option<Literal> {
        let start = self.starts.get(node)? + LENGTH;
        let end = self.starts.get(node + 1).copied().unwrap_or(self.bytes.len());
        let frame = &self.bytes[start..end];
        let kind = NodeKind::from_byte(*frame.get(1)?)?;
        if frame[0] != NODE || !kind.has_literal() {
            return None;
        }
        Literal::from_bytes(&frame[frame.len().checked_sub(literal::SIZE)?..])
    }
}

//! The evaluator: a list run downwards modulo a number.

use crate::frames::Frames;
use crate::kinds::ReferenceKind;
use crate::list::List;
use crate::refusal::Refusal;
use enonkasse_sys::{self as library, CELL_SIZE};

/// The values that a run begins with, each reduced modulo the run's number. What is past the end of
/// its part is not given.
#[derive(Clone, Debug, Default, PartialEq, Eq)]
pub struct Values {
    /// Of each cm, at this row and the next.
    pub cm: Vec<[u64; 2]>,
    /// Of each const, at this row and the next.
    pub constants: Vec<[u64; 2]>,
    /// Of each q, at this row and the next.
    pub q: Vec<[u64; 2]>,
    /// Of each public.
    pub publics: Vec<u64>,
    /// Of each challenge.
    pub challenges: Vec<u64>,
    /// Of each eval.
    pub evals: Vec<u64>,
    /// Of xDivXSubXi, xDivXSubWXi and x, if they are given.
    pub xs: Option<[u64; 3]>,
}

impl Values {
    /// How many words each part has, then the parts.
    fn words(&self) -> Vec<u64> {
        let rows = [&self.cm, &self.constants, &self.q].map(|rows| rows.concat());
        let xs = self.xs.map_or(Vec::new(), |xs| xs.to_vec());
        let [cm, constants, q] = &rows;
        let parts = [cm, constants, q, &self.publics, &self.challenges, &self.evals, &xs];
        let sizes = parts.iter().map(|part| part.len() as u64);
        sizes.chain(parts.iter().flat_map(|part| part.iter().copied())).collect()
    }
}

/// A cell that a run wrote, and the value it had in the end.
#[derive(Clone, Copy, Debug, PartialEq, Eq, Hash)]
pub struct Cell {
    /// What it is.
    pub kind: ReferenceKind,
    /// Whether it is of the next row; a temporary never is.
    pub prime: bool,
    /// Its number among its kind.
    pub id: u16,
    /// Its value, below the modulus.
    pub value: u64,
}

impl Cell {
    fn read(bytes: &[u8]) -> Cell {
        Cell {
            kind: ReferenceKind::from_byte(bytes[0]).expect("a kind of a written cell"),
            prime: bytes[1] != 0,
            id: u16::from_be_bytes([bytes[2], bytes[3]]),
            value: u64::from_be_bytes(bytes[4..].try_into().expect("eight bytes")),
        }
    }
}

/// Runs a list downwards modulo a number from 2 up, and answers every cell written, in the order in
/// which they were first written.
///
/// # Errors
///
/// A refusal of the frames, the list or the pool; 1 for a modulus below 2; 10 where a cell is read
/// that is neither written nor given a value, or a kind or step is met that has no rule.
pub fn evaluate(
    frames: &Frames,
    list: &List,
    modulus: u32,
    values: &Values,
) -> Result<Vec<Cell>, Refusal> {
    // A step writes one cell.
    let (mut out, mut cells) = (vec![0; CELL_SIZE * list.len()], [0]);
    let (frames, list, words) = (frames.bytes(), list.bytes(), values.words());
    Refusal::check(library::evaluate(frames, list, modulus, &words, &mut out, &mut cells))?;
    Ok(out.chunks(CELL_SIZE).take(cells[0]).map(Cell::read).collect())
}

#[cfg(test)]
mod tests {
    use super::*;

    #[test]
    fn a_refusal_changes_nothing_lent() {
        let (mut out, mut cells) = ([7; 24], [8]);
        let words = Values::default().words();
        assert_eq!(library::evaluate(&[], &[], 1, &words, &mut out, &mut cells), 1);
        assert_eq!((out, cells), ([7; 24], [8]));
    }
}

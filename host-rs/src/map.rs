//! `map`: the sections, records and columns of a plan.

use crate::frames::Frames;
use crate::plan::Plan;
use crate::pool::ExpressionId;
use crate::refusal::Refusal;
use enonkasse_sys as library;
use std::fmt;

/// The sections of a plan's columns, in the order of their offsets.
#[derive(Clone, Copy, Debug, PartialEq, Eq, Hash, PartialOrd, Ord)]
pub enum Section {
    /// cm1_n
    Cm1N,
    /// cm2_n
    Cm2N,
    /// cm3_n
    Cm3N,
    /// cm4_n
    Cm4N,
    /// tmpexp_n
    TmpExpN,
    /// cm1_2ns
    Cm12ns,
    /// cm2_2ns
    Cm22ns,
    /// cm3_2ns
    Cm32ns,
    /// cm4_2ns
    Cm42ns,
    /// q_2ns
    Q2ns,
    /// f_2ns
    F2ns,
}

/// How many sections there are.
pub const SECTIONS: usize = library::SECTIONS;

impl Section {
    /// All sections in their order.
    pub const ALL: [Section; SECTIONS] = [
        Section::Cm1N,
        Section::Cm2N,
        Section::Cm3N,
        Section::Cm4N,
        Section::TmpExpN,
        Section::Cm12ns,
        Section::Cm22ns,
        Section::Cm32ns,
        Section::Cm42ns,
        Section::Q2ns,
        Section::F2ns,
    ];

    /// Its name in the original.
    pub fn name(self) -> &'static str {
        const NAMES: [&str; SECTIONS] = [
            "cm1_n", "cm2_n", "cm3_n", "cm4_n", "tmpexp_n", "cm1_2ns", "cm2_2ns", "cm3_2ns",
            "cm4_2ns", "q_2ns", "f_2ns",
        ];
        NAMES[self as usize]
    }
}

impl fmt::Display for Section {
    fn fmt(&self, f: &mut fmt::Formatter<'_>) -> fmt::Result {
        f.write_str(self.name())
    }
}

/// A column's record.
#[derive(Clone, Copy, Debug, PartialEq, Eq, Hash)]
pub struct Record {
    /// Where it stands.
    pub section: Section,
    /// 1, 2 or 3.
    pub dimension: u16,
    /// Its place in a row of its section.
    pub position: u16,
}

/// The width of a section's rows.
#[derive(Clone, Copy, Debug, PartialEq, Eq, Hash)]
pub struct Width {
    /// After dimension 1.
    pub n1: u16,
    /// After dimension 3.
    pub n: u16,
    /// (n - n1) / 3, rounded down.
    pub n3: u16,
}

/// A temporary column.
#[derive(Clone, Copy, Debug, PartialEq, Eq, Hash)]
pub struct Column {
    /// Its expression.
    pub expression: ExpressionId,
    /// Its record.
    pub record: u16,
}

/// What `map` answers.
#[derive(Clone, Debug, PartialEq, Eq)]
pub struct Map {
    /// Where each section begins.
    pub offsets: [u64; SECTIONS],
    /// Where the last one ends.
    pub total: u64,
    /// The widths of the sections.
    pub widths: [Width; SECTIONS],
    /// The records by their numbers.
    pub records: Vec<Record>,
    /// The record of each cm.
    pub cm_n: Vec<u16>,
    /// The record of each cm in the extended domain.
    pub cm_2ns: Vec<u16>,
    /// The dimensions by which leaves read each cm.
    pub cm_dims: Vec<u16>,
    /// The temporary columns in order.
    pub columns: Vec<Column>,
    /// The record of each expression that has one.
    pub exp2pol: Vec<Option<u16>>,
    /// The dimension of q.
    pub q_dim: u16,
}

const NO_RECORD: u16 = library::NO_RECORD as u16;

/// Maps a plan over a pool.
///
/// # Errors
///
/// The refusal of the frames, of the plan's record, of the pool, or 16, 11, 12 of the plan.
pub fn map(frames: &Frames, plan: &Plan) -> Result<Map, Refusal> {
    let (mut out, mut size) = (vec![0; library::MAP_ROOM], [0]);
    Refusal::check(library::map(frames.bytes(), &plan.record(), &mut out, &mut size))?;
    let numbers = out[..size[0]].chunks(2).map(|pair| u16::from_be_bytes([pair[0], pair[1]]));
    Ok(Numbers(numbers).map())
}

/// The numbers of an answer, which are as many as they say.
struct Numbers<I>(I);

impl<I: Iterator<Item = u16>> Numbers<I> {
    fn one(&mut self) -> u16 {
        self.0.next().expect("an answer is whole")
    }

    fn many(&mut self, count: u16) -> Vec<u16> {
        (0..count).map(|_| self.one()).collect()
    }

    fn offset(&mut self) -> u64 {
        (0..4).fold(0, |offset, _| offset << 16 | u64::from(self.one()))
    }

    fn row(&mut self) -> [u16; SECTIONS] {
        [(); SECTIONS].map(|()| self.one())
    }

    fn widths(&mut self) -> [Width; SECTIONS] {
        let (n1, n, n3) = (self.row(), self.row(), self.row());
        let mut places = 0..SECTIONS;
        [(); SECTIONS].map(|()| {
            let k = places.next().expect("a place for each");
            Width { n1: n1[k], n: n[k], n3: n3[k] }
        })
    }

    fn record(&mut self) -> Record {
        let section = Section::ALL[usize::from(self.one())];
        Record { section, dimension: self.one(), position: self.one() }
    }

    fn column(&mut self) -> Column {
        Column { expression: ExpressionId(self.one()), record: self.one() }
    }

    fn map(mut self) -> Map {
        let offsets = [(); SECTIONS].map(|()| self.offset());
        let total = self.offset();
        let (records, cms, columns) = (self.one(), self.one(), self.one());
        Map {
            offsets,
            total,
            q_dim: self.one(),
            widths: self.widths(),
            records: (0..records).map(|_| self.record()).collect(),
            cm_n: self.many(cms),
            cm_2ns: self.many(cms),
            cm_dims: self.many(cms),
            columns: (0..columns).map(|_| self.column()).collect(),
            exp2pol: self.0.map(|record| Some(record).filter(|&r| r != NO_RECORD)).collect(),
        }
    }
}

#[cfg(test)]
mod tests {
    use super::*;

    #[test]
    fn a_refusal_changes_nothing_lent() {
        let mut out = vec![7; 100];
        let mut size = [8];
        let plan = Plan::new(3, 4, 1, ExpressionId(0)).record();
        assert_eq!(library::map(&[], &plan, &mut out, &mut size), 3);
        assert_eq!((out, size), (vec![7; 100], [8]));
    }
}

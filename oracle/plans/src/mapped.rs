//! What `map` answers, as plain numbers.

use asked::text::listed;
use original::starkinfo::StarkInfo;
use original::starkinfo_codegen::{Index, PolType};
use original::types::PIL;
use std::fmt::{self, Display};

/// The sections, by number.
pub const SECTIONS: [&str; 11] = [
    "cm1_n", "cm2_n", "cm3_n", "cm4_n", "tmpexp_n", "cm1_2ns", "cm2_2ns", "cm3_2ns", "cm4_2ns",
    "q_2ns", "f_2ns",
];

pub const Q_2NS: usize = 9;
pub const F_2NS: usize = 10;

/// How many of them have 2^nBits rows; the others have 2^nBitsExt.
const SHORT_SECTIONS: usize = 5;

/// A section that is none of them.
const OTHER_SECTION: &str = "other";

pub fn section_name(section: usize) -> &'static str {
    SECTIONS.get(section).copied().unwrap_or(OTHER_SECTION)
}

#[derive(Clone, Copy, Debug, PartialEq, Eq)]
pub struct Record {
    pub section: usize,
    pub dimension: usize,
    pub position: usize,
}

impl Record {
    pub fn of(pol: &PolType) -> Result<Record, String> {
        let section = SECTIONS
            .iter()
            .position(|&name| name == pol.section)
            .ok_or_else(|| format!("the original made a record of section {}", pol.section))?;
        Ok(Record { section, dimension: pol.dim, position: pol.section_pos })
    }
}

/// An expression and the number of its record.
#[derive(Clone, Copy, Debug, PartialEq, Eq, PartialOrd, Ord)]
pub struct Column {
    pub expression: usize,
    pub record: usize,
}

/// A number for each section.
pub type BySection = [usize; SECTIONS.len()];

pub fn by_section(index: &Index) -> BySection {
    SECTIONS.map(|name| index.get(name))
}

/// Widths of each section: after dimension 1, after 3, and (N - N1) / 3.
#[derive(Clone, Debug, PartialEq, Eq)]
pub struct Widths {
    pub n1: BySection,
    pub n: BySection,
    pub n3: BySection,
}

impl Widths {
    pub fn of(info: &StarkInfo) -> Widths {
        Widths {
            n1: by_section(&info.map_sectionsN1),
            n: by_section(&info.map_sectionsN),
            n3: by_section(&info.map_sectionsN3),
        }
    }
}

#[derive(Clone, Debug, PartialEq, Eq)]
pub struct Mapped {
    pub records: Vec<Record>,
    pub cm_n: Vec<usize>,
    pub cm_2ns: Vec<usize>,
    /// In the order of their columns.
    pub temporary_columns: Vec<Column>,
    /// By expression.
    pub exp2pol: Vec<Column>,
    pub cm_dims: Vec<usize>,
    pub q_dim: usize,
    pub widths: Widths,
    pub offsets: BySection,
    pub total: usize,
}

impl Mapped {
    /// Fails where the original holds something that the rest does not determine.
    pub fn of(info: &StarkInfo, pil: &PIL, bits: (u8, u8)) -> Result<Mapped, String> {
        let records = info.var_pol_map.iter().map(Record::of).collect::<Result<Vec<_>, _>>()?;
        let mut exp2pol: Vec<Column> = info
            .exp2pol
            .iter()
            .map(|(&expression, &record)| Column { expression, record })
            .collect();
        exp2pol.sort();
        check_derived(info, &records, bits)?;
        Ok(Mapped {
            cm_n: info.cm_n.clone(),
            cm_2ns: info.cm_2ns.clone(),
            temporary_columns: temporary_columns(info, &exp2pol)?,
            cm_dims: pil.cm_dims.clone(),
            q_dim: info.q_dim,
            widths: Widths::of(info),
            offsets: by_section(&info.map_offsets),
            total: info.map_total_n,
            records,
            exp2pol,
        })
    }
}

fn temporary_columns(info: &StarkInfo, exp2pol: &[Column]) -> Result<Vec<Column>, String> {
    let of = |&record: &usize| {
        let mut found = exp2pol.iter().filter(|column| column.record == record);
        match (found.next(), found.next()) {
            (Some(&column), None) => Ok(column),
            _ => Err(format!("record {} is not of one expression in exp2pol", record)),
        }
    };
    info.tmpexp_n.iter().map(of).collect()
}

/// Members of sections, q_2ns, f_2ns and map_deg follow from records and bits; the members of
/// q_2ns and f_2ns are never filled in, and one is read for the other.
fn check_derived(info: &StarkInfo, records: &[Record], bits: (u8, u8)) -> Result<(), String> {
    let members = |section: usize| -> Vec<usize> {
        (0..records.len()).filter(|&r| records[r].section == section).collect()
    };
    let filled = (0..Q_2NS).all(|s| *info.map_sections.get(SECTIONS[s]) == members(s));
    let unfilled = info.map_sections.q_2ns.is_empty() && info.map_sections.f_2ns.is_empty();
    let last = info.q_2ns == members(Q_2NS) && info.f_2ns == members(F_2NS);
    let rows = |section| 1 << if section < SHORT_SECTIONS { bits.0 } else { bits.1 };
    let degrees = (0..SECTIONS.len()).all(|s| info.map_deg.get(SECTIONS[s]) == rows(s));
    if filled && unfilled && last && degrees {
        return Ok(());
    }
    Err("members, q_2ns, f_2ns or map_deg do not follow from records and bits".to_string())
}

impl Display for Record {
    fn fmt(&self, f: &mut fmt::Formatter<'_>) -> fmt::Result {
        write!(f, "{}:{}:{}", self.section, self.dimension, self.position)
    }
}

impl Display for Column {
    fn fmt(&self, f: &mut fmt::Formatter<'_>) -> fmt::Result {
        write!(f, "{}:{}", self.expression, self.record)
    }
}

impl Display for Widths {
    fn fmt(&self, f: &mut fmt::Formatter<'_>) -> fmt::Result {
        writeln!(f, "n1 {}", listed(self.n1))?;
        writeln!(f, "n {}", listed(self.n))?;
        writeln!(f, "n3 {}", listed(self.n3))
    }
}

impl Display for Mapped {
    fn fmt(&self, f: &mut fmt::Formatter<'_>) -> fmt::Result {
        writeln!(f, "records {}", listed(&self.records))?;
        writeln!(f, "cm_n {}", listed(&self.cm_n))?;
        writeln!(f, "cm_2ns {}", listed(&self.cm_2ns))?;
        writeln!(f, "tmpexp {}", listed(&self.temporary_columns))?;
        writeln!(f, "exp2pol {}", listed(&self.exp2pol))?;
        writeln!(f, "cm_dims {}", listed(&self.cm_dims))?;
        writeln!(f, "q_dim {}", self.q_dim)?;
        write!(f, "{}", self.widths)?;
        writeln!(f, "offsets {}", listed(self.offsets))?;
        writeln!(f, "total {}", self.total)
    }
}

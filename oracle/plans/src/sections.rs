//! `map_section` alone, on records lent with any sections, dimensions and positions.

use crate::mapped::{section_name, Record, Widths, F_2NS};
use crate::original_map::{caught, Panic};
use asked::text::listed;
use judge::case::{cm, plain_pool};
use judge::run::pil;
use original::starkinfo::{Program, StarkInfo};
use original::starkinfo_codegen::PolType;
use original::types::{StarkStruct, PIL};
use std::fmt;

#[derive(Clone, Debug, PartialEq, Eq)]
pub struct Placed {
    pub positions: Vec<usize>,
    pub widths: Widths,
}

/// The dimension of the record of f_2ns that `map` appends, of which the width is freed again.
const APPENDED: usize = 3;

/// Asks `map` with all counts 0, which places what it finds. It also appends a record of q_2ns,
/// which has dimension 0 here and so no place, and one of f_2ns, the last of its section.
pub fn ask_sections(records: &[Record]) -> Result<Placed, Panic> {
    let mut info = StarkInfo {
        var_pol_map: records.iter().map(polynomial).collect(),
        n_cm4: 1,
        ..StarkInfo::default()
    };
    let mut pil = pil_of_a_column();
    caught(|| info.map(&mut pil, &StarkStruct::default(), &mut Program::default()))?
        .map_err(|error| Panic(error.to_string()))?;
    let positions = info.var_pol_map[..records.len()].iter().map(|pol| pol.section_pos).collect();
    let mut widths = Widths::of(&info);
    widths.n[F_2NS] -= APPENDED;
    widths.n3[F_2NS] -= APPENDED / 3;
    Ok(Placed { positions, widths })
}

fn polynomial(record: &Record) -> PolType {
    PolType {
        section: section_name(record.section).to_string(),
        section_pos: record.position,
        dim: record.dimension,
        exp_id: 0,
    }
}

/// One expression, the column cm0, whose dimension nothing fills in.
fn pil_of_a_column() -> PIL {
    pil(&plain_pool(&[cm(0)]))
}

impl fmt::Display for Placed {
    fn fmt(&self, f: &mut fmt::Formatter<'_>) -> fmt::Result {
        write!(f, "positions {}\n{}", listed(&self.positions), self.widths)
    }
}

#[cfg(test)]
mod tests {
    use super::*;
    use crate::mapped::{BySection, SECTIONS};
    use crate::random_lists;
    use judge::random::Random;

    /// Document 01's sentence: of a section those of dimension 1, then 2, then 3, in record order, each
    /// at the sum of the dimensions before it.
    fn placed_by_the_document(records: &[Record]) -> Placed {
        let mut positions: Vec<usize> = records.iter().map(|record| record.position).collect();
        let (mut n1, mut n): (BySection, BySection) = Default::default();
        for section in 0..SECTIONS.len() {
            for dimension in 1..=3 {
                for (place, record) in records.iter().enumerate() {
                    if (record.section, record.dimension) == (section, dimension) {
                        positions[place] = n[section];
                        n[section] += dimension;
                    }
                }
                if dimension == 1 {
                    n1[section] = n[section];
                }
            }
        }
        let mut n3 = n;
        n3.iter_mut().zip(n1).for_each(|(n3, n1)| *n3 = (*n3 - n1) / 3);
        Placed { positions, widths: Widths { n1, n, n3 } }
    }

    #[test]
    fn what_map_appends_does_not_show() {
        for index in 0..500 {
            let records = random_lists::records(&mut Random::new(1, index));
            assert_eq!(ask_sections(&records), Ok(placed_by_the_document(&records)));
        }
    }
}

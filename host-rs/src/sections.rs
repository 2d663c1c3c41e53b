//! `map_section`: where records stand in their sections, and how wide these are.

use crate::map::{Width, SECTIONS};
use crate::refusal::Refusal;
use enonkasse_sys::records as library;

pub use enonkasse_sys::records::PolType;

/// Gives each record its position in its section, and answers the widths of the sections.
///
/// Within a section records of dimension 1 come first, then 2, then 3, each group in the order of the
/// records; a record of another dimension keeps its position.
///
/// # Errors
///
/// 1 where a section is unknown, 9 where there are more than 4,096 records; the first record that is
/// either decides. The records are then as they were.
pub fn map_section(records: &mut [PolType]) -> Result<[Width; SECTIONS], Refusal> {
    let column = || vec![0; records.len()];
    let (mut sections, mut dims, mut positions) = (column(), column(), column());
    let mut widths = [0; 3 * SECTIONS];
    let number =
        library::map_section(records, &mut sections, &mut dims, &mut positions, &mut widths);
    Refusal::check(number)?;
    let mut places = 0..SECTIONS;
    Ok([(); SECTIONS].map(|()| {
        let k = places.next().expect("a place for each");
        Width { n1: widths[k], n: widths[SECTIONS + k], n3: widths[2 * SECTIONS + k] }
    }))
}

#[cfg(test)]
mod tests {
    use super::*;

    const RECORD: PolType = PolType { section: 4, dim: 2, section_pos: 77 };
    const UNWRITTEN: u16 = 0xa5a5;

    /// The answer where columns and widths of these lengths are lent, and whether anything has changed.
    fn lent(records: &[PolType], lengths: [usize; 3], widths: usize) -> (u8, bool) {
        let mut after = records.to_vec();
        let [mut sections, mut dims, mut positions] = lengths.map(|n| vec![UNWRITTEN; n]);
        let mut room = vec![UNWRITTEN; widths];
        let number =
            library::map_section(&mut after, &mut sections, &mut dims, &mut positions, &mut room);
        let written = [sections, dims, positions, room].concat();
        (number, after != records || written.iter().any(|&number| number != UNWRITTEN))
    }

    #[test]
    fn columns_and_widths_of_other_lengths_are_malformed() {
        let records = [RECORD; 3];
        assert_eq!(lent(&records, [3; 3], 33), (0, true));
        for lengths in [[2, 3, 3], [4, 3, 3], [3, 2, 3], [3, 4, 3], [3, 3, 2], [3, 3, 4], [0; 3]] {
            assert_eq!(lent(&records, lengths, 33), (1, false), "{:?}", lengths);
        }
        for widths in [0, 32, 34] {
            assert_eq!(lent(&records, [3; 3], widths), (1, false), "{}", widths);
        }
    }

    #[test]
    fn a_record_is_three_numbers_of_two_bytes() {
        assert_eq!(std::mem::size_of::<PolType>(), 6);
        assert_eq!(std::mem::align_of::<PolType>(), 2);
    }
}

//! Records of polynomials, which are lent as structs.

/// A polynomial's record, laid out as the library's.
#[repr(C)]
#[derive(Clone, Copy, Debug, Default, PartialEq, Eq, Hash)]
pub struct PolType {
    /// The number of its section.
    pub section: u16,
    /// 1, 2 and 3 have a place; a record of another dimension keeps its position.
    pub dim: u16,
    /// Its place in a row of its section.
    pub section_pos: u16,
}

exported! {
    /// Gives each record its position, and says N1, N and N3 of the sections; the columns, as long as the records,
    /// then hold theirs.
    fn enonkasse_map_section as map_section(
        records: &mut [PolType], sections: &mut [u16], dims: &mut [u16], positions: &mut [u16],
        widths: &mut [u16]
    );
}

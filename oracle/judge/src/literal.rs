//! Literals in frames and vectors.

use crate::hex::Reader;

pub use enonkasse_literal::Literal;

pub fn read(reader: &mut Reader<'_>) -> Result<Literal, String> {
    let minus = reader.bit("a sign")?;
    let magnitude = reader.u64()?;
    Literal::new(minus, magnitude).ok_or_else(|| "minus zero does not exist".to_string())
}

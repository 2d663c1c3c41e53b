//! Literals: a sign and a 64-bit magnitude. Minus zero does not exist.

#![deny(missing_docs)]
#![forbid(unsafe_code)]

use std::fmt;

/// A sign and a 64-bit magnitude.
#[derive(Clone, Copy, Debug, Default, PartialEq, Eq, Hash)]
pub struct Literal {
    minus: bool,
    magnitude: u64,
}

/// Bytes of a literal: the sign, then the magnitude.
pub const SIZE: usize = 9;

impl Literal {
    /// None for minus zero.
    pub fn new(minus: bool, magnitude: u64) -> Option<Literal> {
        Some(Literal { minus, magnitude }).filter(|_| !minus || magnitude != 0)
    }

    /// This magnitude.
    pub fn plus(magnitude: u64) -> Literal {
        Literal { minus: false, magnitude }
    }

    /// Minus this magnitude; 0 for 0.
    pub fn minus(magnitude: u64) -> Literal {
        Literal { minus: magnitude != 0, magnitude }
    }

    /// Whether it is below 0.
    pub fn is_negative(self) -> bool {
        self.minus
    }

    /// Its distance from 0.
    pub fn magnitude(self) -> u64 {
        self.magnitude
    }

    /// As a frame has it.
    pub fn bytes(self) -> [u8; SIZE] {
        let mut bytes = [0; SIZE];
        bytes[0] = u8::from(self.minus);
        bytes[1..].copy_from_slice(&self.magnitude.to_be_bytes());
        bytes
    }

    /// The literal of a frame's bytes, if they are one.
    pub fn from_bytes(bytes: &[u8]) -> Option<Literal> {
        let (sign, magnitude) = bytes.split_first()?;
        let minus = [false, true].get(usize::from(*sign)).copied()?;
        Literal::new(minus, u64::from_be_bytes(magnitude.try_into().ok()?))
    }

    /// Reads decimal text, as the original writes it.
    pub fn from_decimal(text: &str) -> Option<Literal> {
        let (minus, digits) = match text.strip_prefix('-') {
            Some(digits) => (true, digits),
            None => (false, text),
        };
        // `parse` alone would take a plus sign too.
        if !digits.bytes().all(|digit| digit.is_ascii_digit()) {
            return None;
        }
        Literal::new(minus, digits.parse().ok()?)
    }

    /// The literal as the original's addc and mulc hold it.
    pub fn as_i64(self) -> Option<i64> {
        let value = i128::from(self.magnitude);
        i64::try_from(if self.minus { -value } else { value }).ok()
    }
}

impl From<i64> for Literal {
    fn from(value: i64) -> Literal {
        Literal { minus: value < 0, magnitude: value.unsigned_abs() }
    }
}

/// Decimal, as the original writes it.
impl fmt::Display for Literal {
    fn fmt(&self, f: &mut fmt::Formatter<'_>) -> fmt::Result {
        write!(f, "{}{}", if self.minus { "-" } else { "" }, self.magnitude)
    }
}

#[cfg(test)]
mod tests {
    use super::*;

    #[test]
    fn bytes_are_read_back() {
        let literals =
            [Literal::plus(0), Literal::minus(0), i64::MIN.into(), Literal::minus(u64::MAX)];
        for literal in literals {
            assert_eq!(Literal::from_bytes(&literal.bytes()), Some(literal));
        }
        let minus_zero = [1, 0, 0, 0, 0, 0, 0, 0, 0];
        for wrong in [&[2; SIZE][..], &[0; SIZE - 1], &minus_zero, &[]] {
            assert_eq!(Literal::from_bytes(wrong), None, "{:?}", wrong);
        }
    }

    #[test]
    fn zero_has_no_sign() {
        assert_eq!(Literal::minus(0).to_string(), "0");
        assert_eq!(Literal::from(-5).to_string(), "-5");
        assert_eq!(Literal::new(true, 0), None);
    }

    #[test]
    fn decimal_text_leads_back() {
        for text in ["0", "1", "-1", "18446744073709551615", "-18446744073709551615"] {
            assert_eq!(Literal::from_decimal(text).unwrap().to_string(), text);
        }
        for wrong in ["", "-", "-0", "+1", "0x1", "18446744073709551616", "1.5"] {
            assert_eq!(Literal::from_decimal(wrong), None, "{:?}", wrong);
        }
    }

    #[test]
    fn the_i64_range_ends_where_i64_does() {
        assert_eq!(Literal::minus(1 << 63).as_i64(), Some(i64::MIN));
        assert_eq!(Literal::minus((1 << 63) + 1).as_i64(), None);
        assert_eq!(Literal::plus((1 << 63) - 1).as_i64(), Some(i64::MAX));
        assert_eq!(Literal::plus(1 << 63).as_i64(), None);
        assert_eq!(Literal::from(i64::MIN), Literal::minus(1 << 63));
    }
}

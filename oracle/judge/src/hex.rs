//! Lower-case hexadecimal, and big-endian numbers read from it.

use std::fmt::Write;

pub fn encode(bytes: &[u8]) -> String {
    let mut text = String::with_capacity(bytes.len() * 2);
    for byte in bytes {
        write!(text, "{:02x}", byte).expect("a string takes all");
    }
    text
}

pub fn decode(text: &str) -> Result<Vec<u8>, String> {
    if text.is_empty() || text.len() % 2 != 0 {
        return Err("hexadecimal comes in pairs of digits".to_string());
    }
    text.as_bytes().chunks(2).map(|pair| Ok(digit(pair[0])? * 16 + digit(pair[1])?)).collect()
}

fn digit(character: u8) -> Result<u8, String> {
    match character {
        b'0'..=b'9' => Ok(character - b'0'),
        b'a'..=b'f' => Ok(character - b'a' + 10),
        _ => Err("not a command, nor lower-case hexadecimal".to_string()),
    }
}

/// Reads a frame from its start; `end` tells whether it was read whole.
pub struct Reader<'a> {
    rest: &'a [u8],
}

impl<'a> Reader<'a> {
    pub fn new(bytes: &'a [u8]) -> Reader<'a> {
        Reader { rest: bytes }
    }

    pub fn u8(&mut self) -> Result<u8, String> {
        Ok(self.take::<1>()?[0])
    }

    pub fn u16(&mut self) -> Result<u16, String> {
        Ok(u16::from_be_bytes(self.take()?))
    }

    pub fn u64(&mut self) -> Result<u64, String> {
        Ok(u64::from_be_bytes(self.take()?))
    }

    /// A byte that is 0 or 1.
    pub fn bit(&mut self, name: &str) -> Result<bool, String> {
        match self.u8()? {
            0 => Ok(false),
            1 => Ok(true),
            other => Err(format!("{} is 0 or 1, not {}", name, other)),
        }
    }

    pub fn end(self) -> Result<(), String> {
        match self.rest.len() {
            0 => Ok(()),
            more => Err(format!("the frame is {} bytes too long", more)),
        }
    }

    fn take<const N: usize>(&mut self) -> Result<[u8; N], String> {
        if self.rest.len() < N {
            return Err("the frame ends too early".to_string());
        }
        let (head, rest) = self.rest.split_at(N);
        self.rest = rest;
        let mut bytes = [0; N];
        bytes.copy_from_slice(head);
        Ok(bytes)
    }
}

#[cfg(test)]
mod tests {
    use super::*;

    #[test]
    fn only_lower_case_pairs_are_read() {
        assert_eq!(decode("00ff1a").unwrap(), [0x00, 0xff, 0x1a]);
        assert_eq!(encode(&[0x00, 0xff, 0x1a]), "00ff1a");
        for wrong in ["", "0", "0F", "zz", "0 "] {
            assert!(decode(wrong).is_err(), "{:?}", wrong);
        }
    }
}

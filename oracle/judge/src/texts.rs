//! Texts written in short: long ones by rule, and bytes that are no hexadecimal.
//!
//! ```text
//! HEX               a line of these digits
//! each A B HEX      a line for each number from A to B; {} in it is the number in four digits,
//!                   {+N} and {-N} that number and N more or less
//! text BYTES        these bytes and no line feed; \n is a line feed, \xHH any byte
//! ```

use crate::hex;
use std::fmt;

#[derive(Clone, Debug, PartialEq, Eq)]
pub enum Piece {
    Line(String),
    Each { from: u16, to: u16, template: String },
    Text(Vec<u8>),
}

impl Piece {
    pub fn parse(line: &str) -> Result<Piece, String> {
        if let Some(escaped) = line.strip_prefix("text ") {
            return unescape(escaped).map(Piece::Text);
        }
        let words: Vec<&str> = line.split(' ').collect();
        let piece = match words[..] {
            ["each", from, to, template] => {
                let number = |word: &str| {
                    word.parse().map_err(|_| format!("{:?} is no number up to 65535", word))
                };
                Piece::Each { from: number(from)?, to: number(to)?, template: template.to_string() }
            }
            [digits] if is_hexadecimal(digits) => Piece::Line(digits.to_string()),
            _ => return Err(format!("digits, `each` or `text` come here, not {:?}", line)),
        };
        piece.append_to(&mut Vec::new())?;
        Ok(piece)
    }

    fn append_to(&self, bytes: &mut Vec<u8>) -> Result<(), String> {
        match self {
            Piece::Text(text) => bytes.extend(text),
            Piece::Line(line) => append_line(bytes, line),
            Piece::Each { from, to, template } => {
                for number in *from..=*to {
                    append_line(bytes, &filled(template, number)?);
                }
            }
        }
        Ok(())
    }
}

/// The whole text.
pub fn expand(pieces: &[Piece]) -> Result<Vec<u8>, String> {
    let mut bytes = Vec::new();
    for piece in pieces {
        piece.append_to(&mut bytes)?;
    }
    Ok(bytes)
}

fn append_line(bytes: &mut Vec<u8>, line: &str) {
    bytes.extend(line.as_bytes());
    bytes.push(b'\n');
}

fn is_hexadecimal(text: &str) -> bool {
    !text.is_empty() && text.bytes().all(|byte| matches!(byte, b'0'..=b'9' | b'a'..=b'f'))
}

fn filled(template: &str, number: u16) -> Result<String, String> {
    let mut parts = template.split('{');
    let mut line = parts.next().unwrap_or("").to_string();
    for part in parts {
        let (offset, rest) =
            part.split_once('}').ok_or_else(|| format!("{:?} has an open brace", template))?;
        let offset: i32 = match offset.as_bytes() {
            [] => 0,
            [b'+' | b'-', ..] => {
                offset.parse().map_err(|_| format!("{:?} is no offset", offset))?
            }
            _ => return Err(format!("the offset {:?} has no sign", offset)),
        };
        let shifted = u16::try_from(i32::from(number) + offset)
            .map_err(|_| format!("{:?} leaves four digits at {}", template, number))?;
        line.push_str(&format!("{:04x}{}", shifted, rest));
    }
    match is_hexadecimal(&line) {
        true => Ok(line),
        false => Err(format!("{:?} gives no digits", template)),
    }
}

fn escape(bytes: &[u8]) -> String {
    bytes
        .iter()
        .map(|&byte| match byte {
            b'\n' => "\\n".to_string(),
            _ if byte.is_ascii_alphanumeric() => char::from(byte).to_string(),
            _ => format!("\\x{:02x}", byte),
        })
        .collect()
}

fn unescape(text: &str) -> Result<Vec<u8>, String> {
    let wrong = || format!("{:?} is not letters, digits, \\n and \\xHH", text);
    if !text.bytes().all(|byte| byte == b'\\' || byte.is_ascii_alphanumeric()) {
        return Err(wrong());
    }
    let mut parts = text.split('\\');
    let mut bytes = parts.next().unwrap_or("").as_bytes().to_vec();
    for part in parts {
        let rest = match (part.strip_prefix('n'), part.strip_prefix('x')) {
            (Some(rest), _) => {
                bytes.push(b'\n');
                rest
            }
            (_, Some(digits)) if digits.len() >= 2 => {
                bytes.extend(hex::decode(&digits[..2]).map_err(|_| wrong())?);
                &digits[2..]
            }
            _ => return Err(wrong()),
        };
        bytes.extend(rest.as_bytes());
    }
    Ok(bytes)
}

impl fmt::Display for Piece {
    fn fmt(&self, f: &mut fmt::Formatter<'_>) -> fmt::Result {
        match self {
            Piece::Line(line) => f.write_str(line),
            Piece::Each { from, to, template } => write!(f, "each {} {} {}", from, to, template),
            Piece::Text(bytes) => write!(f, "text {}", escape(bytes)),
        }
    }
}

#[cfg(test)]
mod tests {
    use super::*;

    fn text(lines: &[&str]) -> Result<String, String> {
        let pieces: Result<Vec<Piece>, String> =
            lines.iter().map(|line| Piece::parse(line)).collect();
        Ok(String::from_utf8(expand(&pieces?)?).expect("plain text"))
    }

    #[test]
    fn pieces_are_written_as_they_were_read() {
        for line in ["00ff", "each 1 4095 01{}00{-1}{+512}", "text 0G\\x0d\\n"] {
            assert_eq!(Piece::parse(line).unwrap().to_string(), line);
        }
        let every = Piece::Text((0..=255).collect());
        assert_eq!(Piece::parse(&every.to_string()), Ok(every));
    }

    #[test]
    fn rules_are_expanded() {
        assert_eq!(text(&[]).unwrap(), "");
        assert_eq!(text(&["00", "text 1", "text 2\\n\\n"]).unwrap(), "00\n12\n\n");
        assert_eq!(
            text(&["each 9 11 a{}b{-9}{+1}"]).unwrap(),
            "a0009b0000000a\na000ab0001000b\na000bb0002000c\n"
        );
        assert_eq!(text(&["each 1 3 ff"]).unwrap(), "ff\nff\nff\n");
    }

    #[test]
    fn wrong_pieces_are_refused() {
        for line in ["", "0F", "0 1", "each 0 1", "each 0 65536 00", "each 0 1 {", "each 0 1 {1}"] {
            assert!(Piece::parse(line).is_err(), "{:?}", line);
        }
        for line in
            ["each 0 1 {-1}", "each 0 1 xx", "text \\", "text \\x0", "text \\xgg", "text a b"]
        {
            assert!(Piece::parse(line).is_err(), "{:?}", line);
        }
    }
}

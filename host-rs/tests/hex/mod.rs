//! Hexadecimal lines of the stored vectors.

pub fn decode(line: &str) -> Vec<u8> {
    let pairs = (0..line.len()).step_by(2).map(|at| &line[at..at + 2]);
    pairs.map(|pair| u8::from_str_radix(pair, 16).unwrap()).collect()
}

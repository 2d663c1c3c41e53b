//! Reads frames in hexadecimal from standard input, one a line, and prints the first list of their
//! requests and the temporary counter, or the refusal.

use enonkasse::{Context, Frames, Refusal};
use std::io::{self, Read};
use std::process::ExitCode;

/// What is not hexadecimal is a malformed frame.
fn decode(line: &str) -> Result<Vec<u8>, Refusal> {
    let digits: Vec<u32> =
        line.chars().map(|c| c.to_digit(16)).collect::<Option<_>>().ok_or(Refusal::Malformed)?;
    let pairs = digits.chunks(2).map(|pair| match pair {
        [high, low] => Ok((high << 4 | low) as u8),
        _ => Err(Refusal::Malformed),
    });
    pairs.collect()
}

fn listing(input: &str) -> Result<String, Refusal> {
    let mut frames = Frames::new();
    for line in input.lines() {
        let frame = decode(line.trim_end())?;
        // A longer one is none of document 01's.
        if frame.len() > usize::from(u16::MAX) {
            return Err(Refusal::Malformed);
        }
        frames.push(&frame);
    }
    let mut context = Context::new();
    context.serve(&frames)?;
    let mut text = String::new();
    for step in context.list().steps(&frames)? {
        text += &format!("{}\n", step);
    }
    Ok(format!("{}counter {}\n", text, context.temporary_count()))
}

fn main() -> ExitCode {
    let mut input = String::new();
    if let Err(error) = io::stdin().read_to_string(&mut input) {
        eprintln!("standard input cannot be read: {}", error);
        return ExitCode::FAILURE;
    }
    match listing(&input) {
        Ok(text) => {
            print!("{}", text);
            ExitCode::SUCCESS
        }
        Err(refusal) => {
            println!("{}", refusal);
            ExitCode::FAILURE
        }
    }
}

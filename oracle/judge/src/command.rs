//! What the command lines of the oracle's programs do alike.

use std::env;
use std::fs;
use std::io::{self, Write};
use std::process::ExitCode;

pub const DIFFERENT: u8 = 1;
pub const FAILED: u8 = 2;

pub type Done = Result<ExitCode, String>;

/// Does what the program's words ask for; `asked` gives none where it does not know them.
pub fn main(program: &str, help: &str, asked: impl Fn(&[&str]) -> Option<Done>) -> ExitCode {
    let words: Vec<String> = env::args().skip(1).collect();
    let words: Vec<&str> = words.iter().map(String::as_str).collect();
    let done = match words[..] {
        ["--help"] | ["-h"] | ["help"] => print(help),
        _ => asked(&words).unwrap_or_else(|| Err(format!("this is how it is asked:\n\n{}", help))),
    };
    done.unwrap_or_else(|text| {
        eprintln!("{}: {}", program, text);
        ExitCode::from(FAILED)
    })
}

pub fn contents(file: &str) -> Result<String, String> {
    fs::read_to_string(file).map_err(|error| format!("cannot read {}: {}", file, error))
}

pub fn print(text: &str) -> Done {
    match io::stdout().write_all(text.as_bytes()) {
        Ok(()) => Ok(ExitCode::SUCCESS),
        Err(error) => Err(format!("cannot write: {}", error)),
    }
}

/// Tells how many of all that were compared are equal.
pub fn compared(of: &str, what: &str, all: usize, equal: usize) -> Done {
    print(&format!("{}: {} {}, {} equal\n", of, all, what, equal))?;
    Ok(if equal == all { ExitCode::SUCCESS } else { ExitCode::from(DIFFERENT) })
}

pub fn number(word: &str, name: &str) -> Result<u64, String> {
    word.parse().map_err(|_| format!("{} is a number, not {:?}", name, word))
}

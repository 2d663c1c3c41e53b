//! The command line of plans.

use asked::vectors::check;
use judge::command::{self, number, print, Done};
use judge::run::on_large_stack;
use plans::question::Question;
use plans::stored;
use plans::tally;
use std::process::ExitCode;

const HELP: &str = "\
plans - asks the original Rust for plans and for what it does to lists, and keeps its answers

  plans check FILE          asks again for every vector of FILE and compares
  plans write               prints the vectors that vectors/plans.txt stores
  plans tally SEED COUNT    asks the questions of COUNT random inputs, and prints how they are answered
  plans --help              prints this

How questions and answers are written stands at the head of vectors/plans.txt.

Exit status: 0; 1 if something differs; 2 if something could not be read or answered.
";

fn main() -> ExitCode {
    command::main("plans", HELP, asked)
}

fn asked(words: &[&str]) -> Option<Done> {
    Some(match *words {
        ["check", file] => check::<Question>("plans", file),
        ["write"] => on_large_stack(stored::text).and_then(|text| print(&text)),
        ["tally", seed, count] => print_tally(seed, count),
        _ => return None,
    })
}

fn print_tally(seed: &str, count: &str) -> Done {
    let tally = tally::tally(number(seed, "SEED")?, number(count, "COUNT")?)?;
    print(&tally.to_string())
}

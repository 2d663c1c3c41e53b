//! The command line of searches.

use asked::vectors::check;
use judge::command::{self, number, print, Done};
use judge::run::on_large_stack;
use searches::question::Question;
use searches::stored;
use searches::tally;
use std::process::ExitCode;

const HELP: &str = "\
searches - asks the original Rust for its degree search and its constraint polynomial, and keeps its answers

  searches check FILE          asks again for every vector of FILE and compares
  searches make                prints the vectors that vectors/searches.txt stores
  searches random SEED COUNT   prints COUNT random searches with their answers, and a quarter as many constraints
  searches tally SEED COUNT    asks COUNT random questions, and prints how they are answered
  searches --help              prints this

How questions and answers are written stands at the head of vectors/searches.txt.

Exit status: 0; 1 if something differs; 2 if something could not be read or answered.
";

fn main() -> ExitCode {
    command::main("searches", HELP, asked)
}

fn asked(words: &[&str]) -> Option<Done> {
    Some(match *words {
        ["check", file] => check::<Question>("searches", file),
        ["make"] => on_large_stack(stored::text).and_then(|text| print(&text)),
        ["random", seed, count] => print_random(seed, count),
        ["tally", seed, count] => print_tally(seed, count),
        _ => return None,
    })
}

fn print_random(seed: &str, count: &str) -> Done {
    let (seed, count) = (number(seed, "SEED")?, number(count, "COUNT")?);
    on_large_stack(|| stored::random_text(seed, count)).and_then(|text| print(&text))
}

fn print_tally(seed: &str, count: &str) -> Done {
    let tally = tally::tally(number(seed, "SEED")?, number(count, "COUNT")?)?;
    print(&tally.to_string())
}

//! The judge's command line.

use judge::answer::Answer;
use judge::command::{self, compared, contents, number, print, Done, DIFFERENT};
use judge::differ::differ;
use judge::printed::Printed;
use judge::program::Process;
use judge::random;
use judge::run::run;
use judge::runs;
use judge::script::{numbered, Script};
use judge::stored;
use judge::stored_runs;
use judge::vectors;
use std::io::{self, Read};
use std::process::ExitCode;

const HELP: &str = "\
judge - asks the original Rust for generation, and keeps its answers

  judge run [FILE]                    answers the script in FILE, or on standard input
  judge check FILE                    asks again for every vector of FILE and compares
  judge write                         prints the vectors that vectors/generation.txt stores
  judge random SEED COUNT [NODES]     prints COUNT random vectors, of NODES nodes if that is said
  judge steps PROGRAM SEED COUNT      compares PROGRAM with the original on COUNT random inputs
  judge steps-input SEED INDEX        prints one of these inputs, the first being 0
  judge steps-answer [FILE]           prints what PROGRAM should print to the frames in FILE, or on
                                      standard input
  judge steps-check PROGRAM FILE      replays every run of FILE on PROGRAM
  judge steps-write                   prints the runs that vectors/steps.txt stores
  judge --help                        prints this

A script is a pool in the frames of document 01, one a line in lower-case hexadecimal, and then
commands:

  request E P M                       expression, prime (0 or 1), muladd (0 or 1)
  request E P M KIND ID               the same, asking for a result: kind in hex, id in decimal
  03...                               a request frame, the same as request E P M
  build

Lines that begin with # and empty lines are passed over. A run ends at the first refusal. How
answers and vectors are written stands at the head of vectors/generation.txt.

PROGRAM is document 01's `steps`: frames on standard input, the first list and the counter on
standard output. How its runs are written stands at the head of vectors/steps.txt. At the first
difference `judge steps` stops, and prints as small an input as it finds that shows one.

Exit status: 0; 1 if something differs; 2 if something could not be read or answered.
";

fn main() -> ExitCode {
    command::main("judge", HELP, asked)
}

fn asked(words: &[&str]) -> Option<Done> {
    Some(match *words {
        ["run"] | ["run", "-"] => standard_input().and_then(|text| answer("standard input", &text)),
        ["run", file] => contents(file).and_then(|text| answer(file, &text)),
        ["check", file] => vectors::check("generation", file, stored::parse, stored::ask),
        ["write"] => stored::text().and_then(|text| print(&text)),
        ["random", seed, count] => random_vectors(seed, count, None),
        ["random", seed, count, nodes] => random_vectors(seed, count, Some(nodes)),
        ["steps", program, seed, count] => compare(program, seed, count),
        ["steps-input", seed, index] => one_input(seed, index),
        ["steps-answer"] => standard_input().and_then(|text| printed("standard input", &text)),
        ["steps-answer", file] => contents(file).and_then(|text| printed(file, &text)),
        ["steps-check", program, file] => {
            contents(file).and_then(|text| check_runs(program, file, &text))
        }
        ["steps-write"] => stored_runs::text().and_then(|text| print(&text)),
        _ => return None,
    })
}

fn standard_input() -> Result<String, String> {
    let mut text = String::new();
    match io::stdin().read_to_string(&mut text) {
        Ok(_) => Ok(text),
        Err(error) => Err(format!("cannot read standard input: {}", error)),
    }
}

fn answer(source: &str, text: &str) -> Done {
    let script = Script::parse(numbered(text)).map_err(|fault| format!("{}, {}", source, fault))?;
    print(&run(&script)?.iter().map(Answer::to_string).collect::<String>())
}

fn random_vectors(seed: &str, count: &str, nodes: Option<&str>) -> Done {
    let seed = number(seed, "SEED")?;
    let nodes = match nodes {
        Some(word) => Some(number(word, "NODES")? as usize),
        None => None,
    };
    for index in 0..number(count, "COUNT")? {
        let vector = stored::vector(random::case(seed, index, nodes))?;
        print(&format!("{}{}", if index == 0 { "" } else { "\n" }, vector))?;
    }
    Ok(ExitCode::SUCCESS)
}

fn compare(program: &str, seed: &str, count: &str) -> Done {
    let (seed, count) = (number(seed, "SEED")?, number(count, "COUNT")?);
    let (tally, difference) = differ(&Process { path: program }, seed, count)?;
    print(&format!("| {:<28} | {:>10} |\n|---|---|\n{}", "Seed", seed, tally))?;
    let found = match difference {
        None => return Ok(ExitCode::SUCCESS),
        Some(found) => found,
    };
    eprintln!("{}", found);
    Ok(ExitCode::from(DIFFERENT))
}

fn one_input(seed: &str, index: &str) -> Done {
    let script = random::whole_run(number(seed, "SEED")?, number(index, "INDEX")?);
    print(&script.frames())
}

fn printed(source: &str, text: &str) -> Done {
    let script = Script::from_frames(text).map_err(|fault| format!("{}, {}", source, fault))?;
    print(&Printed::of(&script)?.to_string())
}

fn check_runs(program: &str, file: &str, text: &str) -> Done {
    let runs = runs::parse(text).map_err(|fault| format!("{}, {}", file, fault))?;
    if runs.is_empty() {
        return Err(format!("{} has no runs", file));
    }
    let mut equal = 0;
    for run in &runs {
        match run.difference(&Process { path: program })? {
            None => equal += 1,
            Some(difference) => eprintln!("{}: {}", run.name, difference),
        }
    }
    compared("steps", "runs", runs.len(), equal)
}

//! The command line of bench.

mod clock;
mod evaluating;
mod generation;
mod growth;
mod inputs;
mod measure;
mod planning;
mod searching;
mod svg;

use judge::command::{self, number, Done};
use judge::pool::MAX_NODES;
use judge::run::on_large_stack;
use measure::{Case, Pair, Work};
use std::fs;
use std::process::ExitCode;

const HELP: &str = "\
bench table                 the port and the original on the same inputs: a table of medians and ratios
bench growth FILE           the same at 256 to 4,096 nodes: a table of time per node, and a picture of it in FILE
bench names                 the short names of what is measured
bench once NAME SIDE COUNT  does one of these COUNT times on one SIDE, port or original: for a profiler

Times are processor time of the thread; the two sides are measured in turn, and medians are shown. Build it with
cargo build --profile measured, which leaves out the overflow checks that the judge's release build has.
";

fn main() -> ExitCode {
    command::main("bench", HELP, |words| {
        let words: Vec<String> = words.iter().map(|word| word.to_string()).collect();
        match words.iter().map(String::as_str).collect::<Vec<_>>()[..] {
            ["table"] => Some(on_large_stack(table)),
            ["growth", file] => Some(on_large_stack(|| grow(file))),
            ["names"] => Some(on_large_stack(names)),
            ["once", name, side, count] => Some(on_large_stack(|| once(name, side, count))),
            _ => None,
        }
    })
}

fn cases() -> Vec<Case> {
    let mut cases = generation::cases();
    cases.extend(planning::cases());
    cases.extend(searching::cases());
    cases.push(Case::new("evaluate", || evaluating::evaluated(MAX_NODES)));
    cases
}

fn table() -> Done {
    measure::print(&cases());
    Ok(ExitCode::SUCCESS)
}

fn grow(file: &str) -> Done {
    let series = growth::measured();
    growth::print(&series);
    fs::write(file, svg::picture(&series)).map_err(|error| format!("{}: {}", file, error))?;
    Ok(ExitCode::SUCCESS)
}

fn all() -> impl Iterator<Item = Case> {
    cases().into_iter().chain(growth::cases())
}

fn names() -> Done {
    all().for_each(|case| println!("{:<20} {}", case.key, (case.pair)().title));
    Ok(ExitCode::SUCCESS)
}

fn side(pair: Pair, name: &str) -> Option<Work> {
    match name {
        "port" => Some(pair.port),
        "original" => Some(pair.original),
        _ => None,
    }
}

fn once(name: &str, side_name: &str, count: &str) -> Done {
    let case = all().find(|case| case.key == name).ok_or("this is not measured")?;
    let mut work = side((case.pair)(), side_name).ok_or("a side is port or original")?;
    (0..number(count, "COUNT")?).for_each(|_| {
        work();
    });
    Ok(ExitCode::SUCCESS)
}

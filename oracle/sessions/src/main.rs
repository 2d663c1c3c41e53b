//! The command line of sessions.

use judge::command::{self, number, Done, DIFFERENT};
use sessions::many::{self, Mode};
use sessions::{constrained, garbage, planned, searched, sectioned, stack, summary, whole};
use std::process::ExitCode;

const HELP: &str = "\
sessions SEED COUNT             compares the exported functions with the original on COUNT random sessions
sessions runs SEED COUNT        compares the whole run as one call with the original on COUNT random pools and requests
sessions evaluate SEED COUNT    evaluates COUNT first lists and compares the cells with the trees
sessions plans SEED COUNT       compares COUNT random plans and the walks over lists by them with the original
sessions searches SEED COUNT    compares COUNT random degree searches with the original
sessions constraints SEED COUNT compares COUNT random constraint polynomials, in pieces and in one call, with the original
sessions sections SEED COUNT    compares COUNT random lists of records, mapped into their sections, with the original
sessions garbage SEED COUNT     calls every function COUNT times with good, damaged and random input
sessions all SEED PERCENT       all of these, PERCENT of the full run, in one table
sessions stack                  prints how much stack the exported functions need on the deepest pools

A session is a pool with requests, some asking for results, and builds, from a fresh context. A
refused call must leave all that was lent as it was; the original is put back to before it, and
both go on. At the first difference it stops, and prints as small a script as it finds.

A list that is evaluated is the first one of a session, asked for no result and up to its first
build; it is compared with the original's too. Its cells are compared with the values of the
expressions, computed here on the pool's trees, at random rows modulo each of six numbers.

A plan is asked for, and each walk by it, over lists as generation makes them and over any; before each
call the same one is made with one thing wrong in what is lent. A search is also asked with limits of one visit
less than it needs, as many and one more. Every fourth or fifth pool has its expressions spread among
up to 512, and such a plan up to 4,096 records. A table shows how often each answer came.

Garbage is lent between guards: none of their bytes may change, and where a call is refused none of what is lent.

Exit status: 0; 1 if something differs; 2 if something could not be read or answered.
";

fn main() -> ExitCode {
    command::main("sessions", HELP, asked)
}

fn asked(words: &[&str]) -> Option<Done> {
    let (compare, seed, count): (fn(u64, u64) -> Done, _, _) = match *words {
        ["stack"] => {
            stack::print();
            return Some(Ok(ExitCode::SUCCESS));
        }
        ["all", seed, percent] => (compare_all, seed, percent),
        ["runs", seed, count] => (compare_runs, seed, count),
        ["plans", seed, count] => (compare_plans, seed, count),
        ["searches", seed, count] => (compare_searches, seed, count),
        ["constraints", seed, count] => (compare_constraints, seed, count),
        ["sections", seed, count] => (compare_sections, seed, count),
        ["garbage", seed, count] => (try_garbage, seed, count),
        ["evaluate", seed, count] => (|seed, count| run(Mode::Lists, seed, count), seed, count),
        [seed, count] => (|seed, count| run(Mode::Sessions, seed, count), seed, count),
        _ => return None,
    };
    let numbers = number(seed, "SEED").and_then(|seed| Ok((seed, number(count, "COUNT")?)));
    Some(numbers.and_then(|(seed, count)| compare(seed, count)))
}

fn run(mode: Mode, seed: u64, count: u64) -> Done {
    let part = many::run(mode, seed, count)?;
    many::print(mode, seed, &part);
    Ok(verdict(part.difference(mode, seed)?))
}

fn compare_runs(seed: u64, count: u64) -> Done {
    let (tally, difference) = whole::compare(seed, count)?;
    println!("{}", tally);
    Ok(verdict(difference.map(|found| found.to_string())))
}

fn compare_plans(seed: u64, count: u64) -> Done {
    let port = planned::Port::default();
    let (tally, difference) = port.compare(seed, count)?;
    println!("{}", tally);
    println!("Calls with one thing wrong, each refused:");
    println!("{}", port.faults.lock().expect("a tally"));
    Ok(verdict(difference))
}

fn compare_searches(seed: u64, count: u64) -> Done {
    let (tally, difference) = searched::compare(seed, count)?;
    println!("{}", tally);
    Ok(verdict(difference))
}

fn compare_constraints(seed: u64, count: u64) -> Done {
    let (tally, difference) = constrained::compare(seed, count)?;
    println!("{}", tally);
    Ok(verdict(difference))
}

fn compare_sections(seed: u64, count: u64) -> Done {
    let port = sectioned::Port::default();
    let (tally, difference) = port.compare(seed, count)?;
    println!("{}", tally);
    println!("Calls with one thing wrong, each refused:");
    println!("{}", port.faults.lock().expect("a tally"));
    Ok(verdict(difference))
}

fn try_garbage(seed: u64, count: u64) -> Done {
    let (rows, fault) = garbage::run(seed, count)?;
    println!("{}", rows);
    Ok(verdict(fault))
}

fn compare_all(seed: u64, percent: u64) -> Done {
    let summaries = summary::all(seed, percent)?;
    summary::print(seed, &summaries);
    let first = summaries.into_iter().find_map(|summary| summary.difference);
    Ok(verdict(first))
}

fn verdict(difference: Option<String>) -> ExitCode {
    match difference {
        None => ExitCode::SUCCESS,
        Some(text) => {
            eprintln!("{}", text);
            ExitCode::from(DIFFERENT)
        }
    }
}

//! All that is compared with the original, and the garbage, in one table.

use crate::many::{self, Mode};
use crate::{constrained, garbage, planned, searched, sectioned, whole};
use asked::rows::{total, Numbers, Rows, ACCEPTED};

/// What one kind of input came to.
pub struct Summary {
    kind: &'static str,
    runs: u64,
    numbers: Numbers,
    pub difference: Option<String>,
}

type Compare = fn(u64, u64) -> Result<Summary, String>;

/// Each kind of input, and how many runs a hundred percent are.
const KINDS: [(Compare, u64); 8] = [
    (runs, 100_000),
    (sessions, 100_000),
    (evaluations, 100_000),
    (plans, 25_000),
    (searches, 50_000),
    (constraints, 50_000),
    (sections, 100_000),
    (garbage, 100_000),
];

/// The kind that is not compared with anything.
const GARBAGE: &str = "garbage";

/// Compares so many percent of the full run, up to the first difference.
pub fn all(seed: u64, percent: u64) -> Result<Vec<Summary>, String> {
    let mut summaries = Vec::new();
    for (compare, runs) in KINDS {
        let summary = compare(seed, runs * percent / 100)?;
        let differs = summary.difference.is_some();
        summaries.push(summary);
        if differs {
            break;
        }
    }
    Ok(summaries)
}

fn runs(seed: u64, runs: u64) -> Result<Summary, String> {
    let (tally, difference) = whole::compare(seed, runs)?;
    let mut numbers = tally.refused;
    numbers.insert(ACCEPTED, tally.accepted);
    Ok(Summary { kind: "whole runs", runs, numbers, difference: difference.map(|d| d.to_string()) })
}

fn of_sessions(kind: &'static str, mode: Mode, seed: u64, runs: u64) -> Result<Summary, String> {
    let part = many::run(mode, seed, runs)?;
    let (tally, evaluated) = (&part.tally, &part.tally.evaluated);
    let mut numbers = tally.refused.clone();
    let accepted = tally.serves + tally.builds - total(&numbers);
    numbers.insert(ACCEPTED, accepted + evaluated.evaluations);
    *numbers.entry(judge::refusals::FULL).or_default() += evaluated.short;
    Ok(Summary { kind, runs, numbers, difference: part.difference(mode, seed)? })
}

fn sessions(seed: u64, runs: u64) -> Result<Summary, String> {
    of_sessions("sessions", Mode::Sessions, seed, runs)
}

fn evaluations(seed: u64, runs: u64) -> Result<Summary, String> {
    of_sessions("evaluated lists", Mode::Lists, seed, runs)
}

fn plans(seed: u64, runs: u64) -> Result<Summary, String> {
    let port = planned::Port::default();
    let (tally, difference) = port.compare(seed, runs)?;
    let mut rows = Rows::default();
    rows.add("", &tally.rows.numbers());
    rows.add("", &port.faults.lock().expect("a tally").numbers());
    Ok(Summary { kind: "plans and walks", runs, numbers: rows.numbers(), difference })
}

fn searches(seed: u64, runs: u64) -> Result<Summary, String> {
    let (tally, difference) = searched::compare(seed, runs)?;
    Ok(Summary { kind: "searches", runs, numbers: tally.rows.numbers(), difference })
}

fn constraints(seed: u64, runs: u64) -> Result<Summary, String> {
    let (tally, difference) = constrained::compare(seed, runs)?;
    Ok(Summary { kind: "constraints", runs, numbers: tally.rows.numbers(), difference })
}

fn sections(seed: u64, runs: u64) -> Result<Summary, String> {
    let port = sectioned::Port::default();
    let (tally, difference) = port.compare(seed, runs)?;
    let mut rows = Rows::default();
    rows.add("", &tally.rows.numbers());
    rows.add("", &port.faults.lock().expect("a tally").numbers());
    Ok(Summary { kind: "sections", runs, numbers: rows.numbers(), difference })
}

fn garbage(seed: u64, runs: u64) -> Result<Summary, String> {
    let (rows, difference) = garbage::run(seed, runs)?;
    Ok(Summary { kind: GARBAGE, runs, numbers: rows.numbers(), difference })
}

/// Prints a row for each kind, and how its answers are spread over the refusals.
pub fn print(seed: u64, summaries: &[Summary]) {
    println!(
        "| {:<16} | {:>8} | {:>9} | {:>9} | {:>9} | Differences |",
        "Kind of input", "Runs", "Answers", "Equal", "Refused"
    );
    println!("|---|---|---|---|---|---|");
    let mut rows = Rows::default();
    for Summary { kind, runs, numbers, difference } in summaries {
        let equal = total(numbers);
        let (refused, differences) =
            (equal - numbers.get(&ACCEPTED).unwrap_or(&0), u64::from(difference.is_some()));
        println!(
            "| {:<16} | {:>8} | {:>9} | {:>9} | {:>9} | {:>11} |",
            kind,
            runs,
            equal + differences,
            equal,
            refused,
            differences
        );
        rows.add(kind, numbers);
    }
    let compared = summaries.iter().filter(|summary| summary.kind != GARBAGE);
    let compared: u64 = compared.map(|summary| total(&summary.numbers)).sum();
    println!("\nSeed {}. Answers compared, without garbage: {}.\n\n{}", seed, compared, rows);
}

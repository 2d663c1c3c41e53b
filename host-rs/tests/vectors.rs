//! The runs of vectors/steps.txt, the original's answers and document 01's refusals: lists decoded, and
//! written again in the document's encoding.

mod hex;

use enonkasse::{Context, Frames, List, Reference, Refusal, Step};
use std::fmt::Write;

const RUNS: &str = include_str!("../../vectors/steps.txt");

/// A line of frames or of output, or lines written in short: `each A B HEX`. None for other text.
fn lines_of(line: &str) -> Option<Vec<String>> {
    if let Some(rest) = line.strip_prefix("each ") {
        let mut words = rest.split(' ');
        let mut number = || words.next()?.parse::<i64>().ok();
        let (from, to) = (number()?, number()?);
        let hex = words.next()?;
        return (from..=to).map(|number| filled(hex, number)).collect();
    }
    let is_hex = line.len() % 2 == 0 && line.bytes().all(|b| b"0123456789abcdef".contains(&b));
    Some(vec![line.to_string()]).filter(|_| is_hex)
}

/// `{}` stands for the number in four digits, `{+N}` and `{-N}` for N more and less.
fn filled(hex: &str, number: i64) -> Option<String> {
    let mut parts = hex.split('{');
    let mut text = parts.next()?.to_string();
    for part in parts {
        let (more, rest) = part.split_once('}')?;
        let more = if more.is_empty() { 0 } else { more.parse::<i64>().ok()? };
        write!(text, "{:04x}{}", number + more, rest).ok()?;
    }
    Some(text)
}

/// Its input and output, where both are lines of hexadecimal.
fn run(text: &str) -> Option<(Vec<String>, Vec<String>)> {
    let (mut input, mut output) = (Vec::new(), Vec::new());
    let mut into = &mut input;
    for line in text.lines().skip(1).filter(|line| !line.starts_with('#') && !line.is_empty()) {
        match line {
            "end" => return Some((input, output)),
            _ if line.starts_with("output ") => into = &mut output,
            _ => into.extend(lines_of(line)?),
        }
    }
    None
}

fn push_reference(bytes: &mut Vec<u8>, reference: &Reference) {
    bytes.push(reference.kind.byte());
    bytes.extend(reference.id.to_be_bytes());
    bytes.push(u8::from(reference.prime));
    if let Some(literal) = reference.literal {
        bytes.push(u8::from(literal.is_negative()));
        bytes.extend(literal.magnitude().to_be_bytes());
    }
}

fn encode(step: &Step) -> String {
    let mut bytes = vec![step.kind.byte()];
    push_reference(&mut bytes, &step.destination);
    bytes.push(step.sources.len() as u8);
    step.sources.iter().for_each(|source| push_reference(&mut bytes, source));
    bytes.iter().map(|byte| format!("{:02x}", byte)).collect()
}

fn answer(input: &[String]) -> Result<Vec<String>, Refusal> {
    let mut frames = Frames::new();
    input.iter().for_each(|line| frames.push(&hex::decode(line)));
    let mut context = Context::new();
    context.serve(&frames)?;
    let steps = context.list().steps(&frames)?;
    assert_eq!(List::of(&steps), context.list());
    let counter = format!("fe{:04x}", context.temporary_count());
    Ok(steps.iter().map(encode).chain([counter]).collect())
}

#[test]
fn the_stored_runs_are_answered() {
    let (mut asked, mut refused) = (0, 0);
    for text in RUNS.split("\nrun ").skip(1) {
        let (input, output) = match run(text) {
            Some(run) => run,
            None => continue,
        };
        let got = answer(&input).unwrap_or_else(|refusal| {
            refused += 1;
            vec![format!("ff{:02x}", refusal.number())]
        });
        assert_eq!(got, output, "{}", text.lines().next().unwrap_or_default());
        asked += 1;
    }
    assert!(asked >= 500 && refused >= 190, "{} runs, {} refused", asked, refused);
}

//! The stored list of runs: what is in it, and its header.

use crate::chosen::{chosen, Chosen, Expected};
use crate::runs::{original_output, Run, Source};
use crate::texts::{expand, Piece};
use crate::{exhaustive, random, surprises};

/// The seed of the stored random runs, and how many there are.
const SEED: u64 = 1;
const COUNT: u64 = 99;

const HEADER: &str = "\
# The program steps: inputs, and what it must print, byte for byte.
#
# Made in the folder oracle/ by:            judge steps-write > ../vectors/steps.txt
# Replayed on a program by:                 judge steps-check PROGRAM ../vectors/steps.txt
# Without cargo and the original by:        tools/replay_steps.py PROGRAM vectors/steps.txt
# The random ones at the end are runs 0 to {LAST} of judge steps with seed {SEED}.
#
# Lines that begin with # and empty lines say nothing. A run is:
#
#   run NAME
#   the program's standard input
#   output original          the output is the original's answer, in document 01's encoding, or
#   output document          a refusal by document 01: the original has no answer to this input
#   the output
#   end
#
# Input and output are written in short:
#   HEX                      these digits and a line feed
#   each A B HEX             such a line for each number from A to B; in it {} stands for the
#                            number in four digits, {+N} and {-N} for N more and N less
#   text BYTES               these bytes alone; \\n is a line feed and \\xHH any byte
";

fn all() -> Vec<Chosen> {
    let cases =
        [surprises::documents(), surprises::surprises(), surprises::edges(), exhaustive::cases()]
            .concat();
    let random = (0..COUNT).map(|index| {
        let name = format!("random-{}-{:02}", SEED, index);
        Chosen::of_script(&name, &random::whole_run(SEED, index))
    });
    let cases: Vec<Chosen> = cases.iter().filter_map(Chosen::of_case).collect();
    [cases, chosen(), random.collect()].concat()
}

/// The run with its output; what was written by hand in short must be the original's.
fn settle(chosen: Chosen) -> Result<Run, String> {
    let Chosen { name, note, input, expected } = chosen;
    let asked = || original_output(&input).map_err(|text| format!("{}: {}", name, text));
    let (source, output) = match expected {
        Expected::Document(number) => (Source::Document, vec![refusal(number)]),
        Expected::Original => {
            let line = |line: &str| Piece::Line(line.to_string());
            (Source::Original, asked()?.lines().map(line).collect())
        }
        Expected::InShort(pieces) if expand(&pieces)? == asked()?.as_bytes() => {
            (Source::Original, pieces)
        }
        Expected::InShort(_) => {
            return Err(format!("{}: the original says otherwise: {}", name, asked()?));
        }
    };
    Ok(Run { name, note, input, source, output })
}

fn refusal(number: u8) -> Piece {
    Piece::Line(format!("ff{:02x}", number))
}

/// The whole file.
pub fn text() -> Result<String, String> {
    let mut text =
        HEADER.replace("{SEED}", &SEED.to_string()).replace("{LAST}", &(COUNT - 1).to_string());
    for chosen in all() {
        text.push('\n');
        text.push_str(&settle(chosen)?.to_string());
    }
    Ok(text)
}

#[cfg(test)]
mod tests {
    use super::*;
    use crate::runs;
    use std::collections::BTreeSet;

    const STORED: &str = concat!(env!("CARGO_MANIFEST_DIR"), "/../../vectors/steps.txt");

    fn stored() -> String {
        std::fs::read_to_string(STORED).expect("the stored runs")
    }

    #[test]
    fn the_stored_file_is_what_is_written() {
        assert!(text().unwrap() == stored(), "{} is not what `judge steps-write` gives", STORED);
    }

    #[test]
    fn every_refusal_of_a_whole_run_is_there() {
        let runs = runs::parse(&stored()).unwrap();
        let seen: BTreeSet<(bool, String)> = runs
            .iter()
            .filter(|run| run.output.len() == 1)
            .map(|run| (run.source == Source::Original, run.output[0].to_string()))
            .filter(|(_, output)| output.starts_with("ff"))
            .collect();
        let document = ["ff01", "ff02", "ff03", "ff04", "ff09"].map(|o| (false, o.to_string()));
        let original = ["ff03", "ff05"].map(|o| (true, o.to_string()));
        assert_eq!(seen, document.into_iter().chain(original).collect());
    }

    /// What is marked as the document's is nothing that the original could be asked.
    #[test]
    fn the_document_speaks_only_where_the_original_cannot() {
        // The original has no limits; the judge's pools have theirs, but requests have none.
        for run in runs::parse(&stored()).unwrap() {
            if run.source == Source::Document && !run.name.starts_with("requests-1025") {
                assert!(original_output(&run.input).is_err(), "{}", run.name);
            }
        }
    }
}

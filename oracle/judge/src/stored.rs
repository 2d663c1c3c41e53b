//! The stored list of vectors: what is in it, and its header.

use crate::answer::Answer;
use crate::case::Case;
use crate::run::run;
use crate::script::{Script, TextFault};
use crate::vectors;
use crate::{exhaustive, random, surprises};

pub type Vector = vectors::Vector<Script>;

/// The seed of the stored random cases, and how many there are.
pub const SEED: u64 = 1;
pub const COUNT: u64 = 350;

const HEADER: &str = "\
# Generation: scripts and the answers of the original Rust, built unchanged.
#
# Made in the folder oracle/ by:   judge write > ../vectors/generation.txt
# Compared with the original by:   judge check ../vectors/generation.txt
# The random ones at the end are:  judge random {SEED} {COUNT}
#
# Lines that begin with # and empty lines say nothing. A vector is:
#
#   vector NAME
#   the script: frames of document 01 (nodes, then expressions), then commands
#   answers
#   the answers, one for each command, to the first refusal or to the end
#   end
#
# Commands:
#   request E P M            expression, prime, muladd
#   request E P M KIND ID    the same, asking for a result: kind in hexadecimal, id in decimal
#   build
#
# Answer to a request that is accepted:
#   ok
#   counter N                temporaries used
#   marks P Q                a digit for each expression: 1 where it has a mark; plain, primed
#   blocks E:P:S E:P:S ..    expression, prime and steps of each block, in order
# Answer to a request that is refused, after which a vector ends:
#   refused N                N is document 01's
# Answer to a build:
#   first HEX                each step of the first list, in document 01's output encoding;
#   i HEX                    then each of the i list,
#   last HEX                 then each of the last list
#   counter N
#   marks P Q                after the build
# Marks and blocks that are empty are written -.
";

/// Asks the original. Commands that it was not asked, after a refusal, are left out.
pub fn vector(mut case: Case) -> Result<Vector, String> {
    let answers = run(&case.question).map_err(|text| format!("{}: {}", case.name, text))?;
    case.question.commands.truncate(answers.len());
    Ok(Vector { case, answer: text_of(&answers) })
}

/// What the original answers to a script, as text.
pub fn ask(script: &Script) -> Result<String, String> {
    Ok(text_of(&run(script)?))
}

fn text_of(answers: &[Answer]) -> String {
    answers.iter().map(Answer::to_string).collect()
}

pub fn parse(text: &str) -> Result<Vec<Vector>, TextFault> {
    vectors::parse(text, |lines, _| Script::parse(lines.iter().copied()))
}

fn cases() -> Vec<Case> {
    let random = (0..COUNT).map(|index| random::case(SEED, index, None)).collect();
    [
        surprises::documents(),
        surprises::surprises(),
        surprises::edges(),
        exhaustive::cases(),
        random,
    ]
    .concat()
}

/// The whole file.
pub fn text() -> Result<String, String> {
    let mut text =
        HEADER.replace("{SEED}", &SEED.to_string()).replace("{COUNT}", &COUNT.to_string());
    for case in cases() {
        text.push('\n');
        text.push_str(&vector(case)?.to_string());
    }
    Ok(text)
}

#[cfg(test)]
mod tests {
    use super::*;

    const STORED: &str = concat!(env!("CARGO_MANIFEST_DIR"), "/../../vectors/generation.txt");

    #[test]
    fn the_stored_file_is_what_is_written() {
        let stored = std::fs::read_to_string(STORED).expect("the stored vectors");
        assert!(text().unwrap() == stored, "{} is not what `judge write` gives", STORED);
    }

    #[test]
    fn every_surprise_has_its_vectors() {
        let vectors = parse(&text().unwrap()).unwrap();
        for number in 1..=15 {
            let head = format!("g{:02}-", number);
            assert!(vectors.iter().any(|vector| vector.case.name.starts_with(&head)), "{}", head);
        }
    }

    const BARE: &str = "\
# a bare cm0
vector bare
011000000000
02000000
request 0 0 0
answers
ok
counter 0
marks 1 0
blocks 0:0:1
end
";

    #[test]
    fn a_vector_is_read_asked_and_written() {
        let vectors = parse(BARE).unwrap();
        assert_eq!(ask(&vectors[0].case.question).as_ref(), Ok(&vectors[0].answer));
        assert_eq!(format!("# a bare cm0\n{}", vectors[0]), BARE);
        let wrong = BARE.replace("vector bare\n", "vector bare\n03\n");
        assert_eq!(
            parse(&wrong).expect_err("a short frame").to_string(),
            "line 3: the frame ends too early"
        );
    }

    #[test]
    fn what_comes_after_a_refusal_is_left_out() {
        let refused = BARE.replace("request 0 0 0", "request 1 0 0\nbuild");
        let case = parse(&refused).unwrap().remove(0).case;
        let vector = vector(case).unwrap();
        assert_eq!((vector.case.question.commands.len(), &vector.answer[..]), (1, "refused 3\n"));
    }
}

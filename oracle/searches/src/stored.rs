//! The stored list of vectors: what is in it, and its header.

use crate::edges;
use crate::question::Question;
use crate::random;
use crate::surprises;
use crate::vectors::Case;
use asked::vectors::{answered, is_short};

/// The seed of the stored random questions, and how many of each kind there are.
pub const SEED: u64 = 1;
pub const COUNT: u64 = 150;
pub const CONSTRAINTS: u64 = 60;

/// Random questions whose text or answer is longer are not stored.
const LONGEST: usize = 4000;

const HEADER: &str = "\
# Searches: questions and the answers of the original Rust, built unchanged.
#
# Made in the folder oracle/ by:   searches make > ../vectors/searches.txt
# Compared with the original by:   searches check ../vectors/searches.txt
#
# Refusals have document 01's numbers: 17, 16 and 3 by its rules; 15 where a counter put at the entry of the
# degree rule passes the limit; 6 where the original panics at a kind; 13 where no d yields a set, after which
# the original goes on with q 0; 14 where it keeps a q of -1. What is accepted is the original's word.
#
# Lines that begin with # and empty lines say nothing. A vector is:
#
#   vector NAME
#   the pool: frames of document 01 (nodes, then expressions); it is an admitted one
#   ask search               or: ask constraint
#   identities E ..          numbers of expressions (- for none)
#   bits B E                 nBits, nBitsExt
#   limit N                  visits at most
#   answers
#   the answer
#   end
#
# The constraint is also asked with:
#   columns A B N            n_cm1, n_cm2, and nCommitments before
#   vc N                     the number of the challenge vc
#   first COMMAND            what was done to the caller's context before, a line for each command;
#   second COMMAND           and to the second context: request E P M (expression, prime, muladd), or build
#
# Answers:
#   refused N
# or, to a search:
#   set E ..                 expressions, ascending (- for none)
#   q N
#   visits N                 calls of the degree rule over all d
# and to a constraint these and:
#   im E:CM ..               intermediates with their cm numbers, in order
#   c_exp N                  the number of the constraint expression, which has no flags
#   node HEX                 its nodes as frames, numbered after those of the pool: of each sum vc.c + e those of c,
#                            then vc, the product, those of e, and the sum; of another tree children first, left
#                            before right
#   columns A B N            n_cm3, n_cm4, and nCommitments after
#   qs N ..
#   step3 first HEX          a line for each step of the first list, i and last likewise, in document 01's output
#                            encoding; then
#   step3 counter N          temporaries used,
#   step3 marks P Q          and the context's marks after the build, a digit for each expression, plain and primed
#   step42ns ..              the same, with the second context
# The refusals of a constraint after those of its search: 9 where the pool with it or a column's number passes
# its limit, 11 where nCommitments is below n_cm1 + n_cm2, then the original's 5.
";

/// Random questions of a seed: so many searches and so many constraints.
fn random(seed: u64, searches: u64, constraints: u64) -> Vec<Case> {
    let name = |index: u64| format!("random-{}-{:03}", seed, index);
    let search = |index| Case::new(&name(index), Question::Search(random::search(seed, index)));
    let constraint = |index| {
        let question = Question::Constraint(random::constraint(seed, index));
        Case::new(&format!("{}-constraint", name(index)), question)
    };
    (0..searches).map(search).chain((0..constraints).map(constraint)).collect()
}

/// So many random searches with their answers, and a quarter as many constraints. Call it on a large stack.
pub fn random_text(seed: u64, count: u64) -> Result<String, String> {
    answered(random(seed, count, count / 4))
}

/// The whole file. Call it on a large stack.
pub fn text() -> Result<String, String> {
    let mut cases = [surprises::documents(), surprises::surprises(), edges::edges()].concat();
    for case in random(SEED, COUNT, CONSTRAINTS) {
        if is_short(&case.question, LONGEST)? {
            cases.push(case);
        }
    }
    Ok(HEADER.to_string() + &answered(cases)?)
}

#[cfg(test)]
mod tests {
    use super::*;
    use asked::checks;

    const STORED: &str = concat!(env!("CARGO_MANIFEST_DIR"), "/../../vectors/searches.txt");
    const MOST_BYTES: usize = 400_000;

    #[test]
    fn the_stored_file_is_what_is_written() {
        checks::is_what_is_written(STORED, text, MOST_BYTES);
    }

    #[test]
    fn every_surprise_has_its_vectors() {
        let numbers = [1, 2, 3, 4, 5, 6, 8, 9, 10, 11, 12, 14, 15, 16, 17, 18, 19];
        let heads = numbers.iter().map(|number| format!("s{:02}-", number));
        checks::has_names::<Question>(text, heads);
    }

    #[test]
    fn vectors_are_read_as_they_were_written() {
        checks::is_read_as_written::<Question>(text);
    }
}

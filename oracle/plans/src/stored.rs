//! The stored list of vectors: what is in it, and its header.

use crate::edges;
use crate::list_edges;
use crate::shapes;
use crate::surprises;
use crate::tally::{questions, Labelled};
use crate::vectors::Case;
use asked::vectors::{answered, is_short};

/// The seed of the stored random questions, and of how many inputs they are.
pub const SEED: u64 = 1;
pub const COUNT: u64 = 180;

/// Random questions whose text or answer is longer are not stored.
const LONGEST: usize = 2500;

const HEADER: &str = "\
# Plans: questions and the answers of the original Rust, built unchanged.
#
# Made in the folder oracle/ by:   plans write > ../vectors/plans.txt
# Compared with the original by:   plans check ../vectors/plans.txt
#
# Refusals have document 01's numbers. Those of a plan are decided by the document's rules, in its order;
# those of lists are panics of the original, but for 9: a counter above 65,535. What is accepted is the
# original's word.
#
# Lines that begin with # and empty lines say nothing. A vector is:
#
#   vector NAME
#   the pool: frames of document 01 (nodes, then expressions); it need not be an admitted one
#   the plan
#   ask WHAT                 and what is asked about
#   answers
#   the answer
#   end
#
# The plan (its record has these numbers big-endian in this order, bits in 1 byte each, the others in 2, and
# after quotient the counts of pu, pe, ci, im, qs and q2exp):
#   bits B E                 nBits, nBitsExt
#   columns A B C D          n_cm1 to n_cm4
#   quotient D E             q_deg, c_exp
#   pu F T NUM DEN           a line for each; pe NUM DEN and ci NUM DEN likewise
#   im E CM                  an intermediate: expression, cm number
#   qs N ..                  numbers that lists read q by
#   q2exp E ..               expressions that leaves read q by
# or, where the record is malformed:
#   plan HEX
#
# What is asked:
#   map
#   exp_dims                 get_exp_dim of every expression, with the cm_dims that map leaves
#   fix n, fix 2ns           fixing of a segment in this domain
#   query                    fixing in 2ns, then the walk of the verifier's query code
#   dims                     the dimension pass with x dimension 3, on a segment that is not fixed
#   dims_first               the same on the first list only (set_code_dimensions_first)
#   fix_dims n, fix_dims 2ns, query_dims
#                            the same walks, then the dimension pass with x dimension 1
#   sections                 map_section; no pool and no plan, but lines
#   record S D P             section, dimension, old position
#
# A segment is asked about and answered in these lines:
#   counter N                temporaries used
#   first DEST = STEP SRC .. a step of the first list; i and last likewise
# A reference is KIND:ID, with ' where it is primed; a number is number:LITERAL. After @ come those of its
# fields that are not 0: d dimension, p, t tree_pos, e exp_id. step05 is a step of byte 05, which none has.
#
# Answers:
#   refused N
# or, to map (- for none):
#   records S:D:P ..         section, dimension, position. Sections: 0 cm1_n, 1 cm2_n, 2 cm3_n, 3 cm4_n,
#                            4 tmpexp_n, 5 cm1_2ns, 6 cm2_2ns, 7 cm3_2ns, 8 cm4_2ns, 9 q_2ns, 10 f_2ns
#   cm_n R ..                the record of each column, and cm_2ns likewise
#   tmpexp E:R ..            temporary columns in order: expression and record
#   exp2pol E:R ..           by expression
#   cm_dims D ..
#   q_dim D
#   n1 W ..                  widths by section: after dimension 1; n and n3 likewise
#   offsets O ..             by section
#   total N
# to exp_dims:
#   dims D ..                by expression
# to sections:
#   positions P ..           by record, then n1, n and n3
";

/// Of each input the plan, and one of the other questions, so that all have their turn.
fn random() -> Result<Vec<Case>, String> {
    let mut cases = Vec::new();
    for index in 0..COUNT {
        let mut asked = questions(SEED, index)?;
        let other = asked.swap_remove(1 + index as usize % (asked.len() - 1));
        let map = asked.swap_remove(0);
        for labelled in [map, other] {
            if is_short(&labelled.question, LONGEST)? {
                cases.push(named(index, labelled));
            }
        }
    }
    Ok(cases)
}

fn named(index: u64, Labelled { label, question }: Labelled) -> Case {
    let label = label.replace(", ", "-").replace(' ', "-");
    Case::new(&format!("random-{}-{:03}-{}", SEED, index, label), question)
}

/// The whole file. Call it on a large stack.
pub fn text() -> Result<String, String> {
    let chosen = [
        surprises::documents(),
        surprises::surprises(),
        edges::edges(),
        list_edges::edges(),
        shapes::shapes(),
    ];
    let cases = chosen.concat().into_iter().chain(random()?);
    Ok(HEADER.to_string() + &answered(cases)?)
}

#[cfg(test)]
mod tests {
    use super::*;
    use crate::question::Question;
    use asked::checks;

    const STORED: &str = concat!(env!("CARGO_MANIFEST_DIR"), "/../../vectors/plans.txt");
    const MOST_BYTES: usize = 600_000;

    #[test]
    fn the_stored_file_is_what_is_written() {
        checks::is_what_is_written(STORED, text, MOST_BYTES);
    }

    /// The others that the notes have, m23 and m25, are tests.
    #[test]
    fn every_surprise_has_its_vectors() {
        let numbers = [1, 2, 3, 4, 5, 6, 7, 8, 9, 10, 11, 12, 13, 14, 16, 18, 21, 22];
        let heads = numbers.iter().map(|number| format!("m{:02}-", number));
        checks::has_names::<Question>(text, heads);
    }

    #[test]
    fn vectors_are_read_as_they_were_written() {
        checks::is_read_as_written::<Question>(text);
    }
}

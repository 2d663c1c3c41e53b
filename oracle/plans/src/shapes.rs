//! Small plans of every shape: each number of lookups, products, intermediates and quotient columns.

use crate::plan::Plan;
use crate::vectors::Case;
use crate::written::{intermediate, map, pu, ratio, small, with_columns};
use judge::case::{add, cm, exp, leaf, mul, Tree};
use judge::kinds::Kind;

/// Of dimensions 1, 1, 3 and 3.
fn trees() -> Vec<Tree> {
    let challenge = leaf(Kind::CHALLENGE, 0);
    vec![mul(cm(0), cm(1)), cm(0), add(exp(1), challenge.clone()), challenge]
}

pub fn shapes() -> Vec<Case> {
    let mut cases = Vec::new();
    for lookups in 0..=2 {
        for pe in 0..=1 {
            for ci in 0..=1 {
                for intermediates in 0..=2 {
                    for q_deg in 0..=1 {
                        cases.push(shape([lookups, pe, ci, intermediates, q_deg]));
                    }
                }
            }
        }
    }
    cases
}

fn shape(counts: [u16; 5]) -> Case {
    let [lookups, pe, ci, intermediates, q_deg] = counts;
    let pu = [pu(0, 1, 2, 3), pu(0, 2, 0, 1)];
    let first = 2 + 3 * lookups + pe + ci;
    let plan = Plan {
        pu: pu[..usize::from(lookups)].to_vec(),
        pe: (0..pe).map(|_| ratio(3, 0)).collect(),
        ci: (0..ci).map(|_| ratio(1, 1)).collect(),
        intermediates: (0..intermediates).map(|i| intermediate(i + 1, first + i)).collect(),
        q_deg,
        c_exp: 2,
        ..small()
    };
    let digits: String = counts.iter().map(|count| count.to_string()).collect();
    Case::new(&format!("shape-{}", digits), map(&trees(), &with_columns(2, plan)))
}

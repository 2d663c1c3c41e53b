//! A short way to write questions.

use crate::input::{Draft, Input};
use crate::lists::Segment;
use crate::plan::{Intermediate, Plan, Pu, Ratio};
use crate::question::Question;
use crate::walks::Walk;
use judge::case::{plain_pool, Tree};

/// A pool of these expressions.
pub fn pool(trees: &[Tree]) -> Draft {
    Draft::of(&plain_pool(trees))
}

pub fn pu(f: u16, t: u16, num: u16, den: u16) -> Pu {
    Pu { f, t, ratio: ratio(num, den) }
}

pub fn ratio(num: u16, den: u16) -> Ratio {
    Ratio { num, den }
}

pub fn intermediate(expression: u16, cm: u16) -> Intermediate {
    Intermediate { expression, cm }
}

/// 8 rows, extended to 16.
pub fn small() -> Plan {
    Plan { n_bits: 3, n_bits_ext: 4, ..Plan::default() }
}

/// The plan with so many columns of cm1, and as many of the others as its entries need.
pub fn with_columns(n_cm1: u16, plan: Plan) -> Plan {
    let n_cm2 = 2 * plan.pu.len() as u16;
    let n_cm3 = (plan.products() + plan.intermediates.len()) as u16;
    Plan { n_cm: [n_cm1, n_cm2, n_cm3, plan.q_deg], ..plan }
}

pub fn map(trees: &[Tree], plan: &Plan) -> Question {
    Question::Map(Input::new(pool(trees), plan))
}

pub fn exp_dims(trees: &[Tree], plan: &Plan) -> Question {
    Question::ExpDims(Input::new(pool(trees), plan))
}

/// A walk over the segment of these lines.
pub fn walk(trees: &[Tree], plan: &Plan, walk: Walk, lines: &[&str]) -> Question {
    let mut segment = Segment::default();
    for line in lines {
        let taken = segment.take_line(line).expect("a good line");
        assert!(taken, "{} is no line of a segment", line);
    }
    Question::Walk(Input::new(pool(trees), plan), walk, segment)
}

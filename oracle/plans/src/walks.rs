//! The walks over a segment's lists: fixing, the query code's walk and the dimension pass, asked
//! of the original by way of `map`, which does them to the segments of its program.

use crate::lists::{Reference, Segment, Step};
use crate::mapped::Mapped;
use crate::original_map::{caught, run_map, Panic};
use crate::plan::Plan;
use asked::question::Refused;
use judge::kinds::Kind;
use judge::pool::Pool;
use judge::refusals::{FULL, NOT_THERE, NO_DIMENSION, NO_RULE};
use original::starkinfo::Program;
use original::starkinfo_codegen as code;
use std::collections::HashSet;

/// The largest number of a list's record.
const MAX_NUMBER: usize = u16::MAX as usize;

#[derive(Clone, Copy, Debug, PartialEq, Eq)]
pub enum Domain {
    N,
    TwoNs,
}

/// What is done to a segment.
#[derive(Clone, Copy, Debug, PartialEq, Eq)]
pub enum Walk {
    Fix(Domain),
    /// Fixing in "2ns", then the walk of the verifier's query code.
    Query,
    /// The dimension pass with x dimension 3, on a segment that was not fixed.
    Dims,
    /// `set_code_dimensions_first`: the first list only, x dimension 3.
    DimsFirst,
    /// Fixing, then the dimension pass with x dimension 1.
    FixDims(Domain),
    /// The query code's two walks, then the dimension pass with x dimension 1.
    QueryDims,
}

impl Walk {
    pub const ALL: [Walk; 8] = [
        Walk::Fix(Domain::N),
        Walk::Fix(Domain::TwoNs),
        Walk::Query,
        Walk::Dims,
        Walk::DimsFirst,
        Walk::FixDims(Domain::N),
        Walk::FixDims(Domain::TwoNs),
        Walk::QueryDims,
    ];

    pub fn name(self) -> &'static str {
        match self {
            Walk::Fix(Domain::N) => "fix n",
            Walk::Fix(Domain::TwoNs) => "fix 2ns",
            Walk::Query => "query",
            Walk::Dims => "dims",
            Walk::DimsFirst => "dims_first",
            Walk::FixDims(Domain::N) => "fix_dims n",
            Walk::FixDims(Domain::TwoNs) => "fix_dims 2ns",
            Walk::QueryDims => "query_dims",
        }
    }

    /// The walk before its last one, if it has several.
    fn before(self) -> Option<Walk> {
        match self {
            Walk::Query => Some(Walk::Fix(Domain::TwoNs)),
            Walk::FixDims(domain) => Some(Walk::Fix(domain)),
            Walk::QueryDims => Some(Walk::Query),
            Walk::Fix(_) | Walk::Dims | Walk::DimsFirst => None,
        }
    }

    /// Whether it fixes. Steps with sources missing or a step byte that is not known are for the
    /// dimension pass to refuse; fixing does not look at steps.
    pub fn fixes(self) -> bool {
        !matches!(self, Walk::Dims | Walk::DimsFirst)
    }
}

/// Asks the original, for an accepted plan. A refusal must have been foreseen; the walks are taken one
/// after the other, each over the whole segment. An answer that does not fit is 9.
pub fn ask_walk(
    pool: &Pool,
    plan: &Plan,
    mapped: &Mapped,
    walk: Walk,
    segment: &Segment,
) -> Result<Segment, Refused> {
    let foreseen = match walk.before() {
        Some(before) => {
            let walked = ask_walk(pool, plan, mapped, before, segment)?;
            refusal(plan, mapped, walk, &walked)
        }
        None => refusal(plan, mapped, walk, segment),
    };
    match (foreseen, run_walk(pool, plan, walk, segment)) {
        (None, Ok(walked)) => {
            let answer = segment.after(&walked).map_err(Refused::Not)?;
            // The original's numbers have no limit.
            if answer.counter > MAX_NUMBER {
                return Err(Refused::With(FULL));
            }
            Ok(answer)
        }
        (Some(number), Err(panic)) if panic.may_mean(number) => Err(Refused::With(number)),
        (foreseen, end) => Err(Refused::Not(format!(
            "the original ended with {:?}; foreseen was {:?}",
            end.map(|_| "a segment"),
            foreseen
        ))),
    }
}

/// A step that fixing passes over and no dimension pass does.
const STOP: &str = "stop";

/// Put before a segment, it ends `map` after all fixing and before the segment's dimensions.
fn stopper() -> code::Segment {
    let dest = Reference::new(Kind::TMP, 0);
    let step = Step { op: 0, dest, src: Vec::new() };
    let mut stopper = Segment { first: vec![step], ..Segment::default() }.to_original();
    stopper.first[0].op = STOP.to_string();
    stopper
}

fn run_walk(
    pool: &Pool,
    plan: &Plan,
    walk: Walk,
    segment: &Segment,
) -> Result<code::Segment, Panic> {
    if walk == Walk::DimsFirst {
        return dimensions_first(pool, plan, segment);
    }
    let stops = matches!(walk, Walk::Fix(_) | Walk::Query);
    let mut program = Program::default();
    if stops {
        program.step2prev = stopper();
    }
    *place(&mut program, walk) = segment.to_original();
    let mut after = run_map(pool, plan, program);
    let end = match after.end {
        Err(Panic(text)) if stops && text == format!("Invalid op: {}", STOP) => Ok(()),
        end => end,
    };
    end.map(|()| std::mem::take(place(&mut after.program, walk)))
}

/// The segment of the program to which `map` does what is asked.
fn place(program: &mut Program, walk: Walk) -> &mut code::Segment {
    match walk {
        Walk::Fix(Domain::N) | Walk::FixDims(Domain::N) => &mut program.step3,
        Walk::Fix(Domain::TwoNs) | Walk::FixDims(Domain::TwoNs) => &mut program.step42ns,
        Walk::Query | Walk::QueryDims => &mut program.verifier_query_code,
        Walk::Dims | Walk::DimsFirst => &mut program.verifier_code,
    }
}

fn dimensions_first(pool: &Pool, plan: &Plan, segment: &Segment) -> Result<code::Segment, Panic> {
    let mut after = run_map(pool, plan, Program::default());
    after.end?;
    let mut segment = segment.to_original();
    caught(|| after.info.set_code_dimensions_first(&mut segment))?
        .map_err(|error| Panic(error.to_string()))?;
    Ok(segment)
}

impl Panic {
    /// Whether the original's word is one that it has where document 01 gives this number.
    fn may_mean(&self, number: u8) -> bool {
        let begins = |words: &[&str]| words.iter().any(|word| self.0.starts_with(word));
        match number {
            NOT_THERE => begins(&["index out of bounds"]),
            NO_DIMENSION => self.0 == "Invalid dim",
            NO_RULE => begins(&[
                "Invalid reference type",
                "Invalid op",
                "index out of bounds",
                "called `Option::unwrap()` on a `None` value",
            ]),
            _ => false,
        }
    }
}

/// References in the order in which they are fixed: sources before the destination.
fn fixed_in_order(segment: &Segment) -> impl Iterator<Item = &Reference> {
    segment.steps().flat_map(|step| step.src.iter().chain([&step.dest]))
}

/// The number that the last walk refuses a segment with.
fn refusal(plan: &Plan, mapped: &Mapped, walk: Walk, segment: &Segment) -> Option<u8> {
    match walk {
        Walk::Fix(_) => fixed_in_order(segment).find_map(|r| fixing_refusal(mapped, r)),
        Walk::Query => fixed_in_order(segment).find_map(|r| column_refusal(mapped, r)),
        _ => dimension_refusal(plan, mapped, walk, segment),
    }
}

fn fixing_refusal(mapped: &Mapped, reference: &Reference) -> Option<u8> {
    match reference.kind {
        Kind::TREE1 | Kind::TREE2 | Kind::TREE3 | Kind::TREE4 | Kind::Z => Some(NO_RULE),
        _ => column_refusal(mapped, reference),
    }
}

/// A cm that is not there; after fixing an intermediate's, of which the plan may say any number.
fn column_refusal(mapped: &Mapped, reference: &Reference) -> Option<u8> {
    match reference.kind {
        Kind::CM if reference.id >= mapped.cm_n.len() => Some(NOT_THERE),
        _ => None,
    }
}

fn dimension_refusal(plan: &Plan, mapped: &Mapped, walk: Walk, segment: &Segment) -> Option<u8> {
    let mut pass = Pass { plan, mapped, written: HashSet::new() };
    match walk {
        Walk::DimsFirst => segment.first.iter().find_map(|step| pass.refusal(step)),
        _ => segment.steps().find_map(|step| pass.refusal(step)),
    }
}

/// A dimension pass as far as refusals go: temporaries are written for the whole segment.
struct Pass<'a> {
    plan: &'a Plan,
    mapped: &'a Mapped,
    written: HashSet<usize>,
}

impl Pass<'_> {
    fn refusal(&mut self, step: &Step) -> Option<u8> {
        let needed = match step.known() {
            Some(known) => known.source_count(),
            None => return Some(NO_RULE),
        };
        for place in 0..needed {
            match step.src.get(place).map(|source| self.source_refusal(source)) {
                Some(None) => {}
                Some(refusal) => return refusal,
                None => return Some(NO_RULE),
            }
        }
        match step.dest.kind {
            Kind::TMP => {
                self.written.insert(step.dest.id);
                None
            }
            Kind::EXP | Kind::CM | Kind::Q | Kind::TMP_EXP | Kind::F => None,
            _ => Some(NO_RULE),
        }
    }

    fn source_refusal(&self, source: &Reference) -> Option<u8> {
        let refused = |is_good: bool, number: u8| if is_good { None } else { Some(number) };
        match source.kind {
            Kind::TMP => refused(self.written.contains(&source.id), NO_RULE),
            Kind::TREE1 | Kind::TREE2 | Kind::TREE3 | Kind::TREE4 | Kind::TMP_EXP => {
                refused(source.dim != 0, NO_DIMENSION)
            }
            Kind::CM => refused(source.id < self.mapped.cm_2ns.len(), NOT_THERE),
            Kind::Q => refused(self.has_q(source.id), NOT_THERE),
            Kind::EXP | Kind::F => Some(NO_RULE),
            _ => None,
        }
    }

    /// Lists read q through qs, whose entries are used as record numbers.
    fn has_q(&self, id: usize) -> bool {
        let record = self.plan.qs.get(id).copied();
        record.map_or(false, |record| usize::from(record) < self.mapped.records.len())
    }
}

#[cfg(test)]
mod tests {
    use super::*;
    use crate::original_map::expected;
    use crate::random;
    use judge::kinds;
    use judge::random::Random;
    use judge::run::on_large_stack;

    #[test]
    fn a_panic_means_what_it_says() {
        let means = |text: &str| -> Vec<u8> {
            let numbers = [NOT_THERE, FULL, NO_RULE, NO_DIMENSION];
            let panic = Panic(text.to_string());
            numbers.into_iter().filter(|&number| panic.may_mean(number)).collect()
        };
        let index = "index out of bounds: the len is 2 but the index is 2";
        assert_eq!(means(index), [NOT_THERE, NO_RULE]);
        assert_eq!(means("Invalid dim"), [NO_DIMENSION]);
        assert_eq!(means("Invalid reference type get exp"), [NO_RULE]);
        assert_eq!(means("Invalid op: step05"), [NO_RULE]);
        assert_eq!(means("called `Option::unwrap()` on a `None` value"), [NO_RULE]);
        assert!(means("Invalid cm section").is_empty());
    }

    /// `map` does not show which column an expression has; fixing does.
    #[test]
    fn temporary_columns_are_those_that_fixing_gives() {
        let mut seen = 0;
        for index in 0..300 {
            let input = random::input(&mut Random::new(5, index));
            let (pool, plan, mapped) = match on_large_stack(|| Ok(expected(&input))).unwrap() {
                Ok(accepted) => accepted,
                Err(_) => continue,
            };
            for (number, column) in mapped.temporary_columns.iter().enumerate() {
                let dest = Reference::new(Kind::EXP, column.expression);
                let copy = Step { op: kinds::Step::COPY.byte(), dest, src: vec![dest] };
                let segment = Segment { first: vec![copy], ..Segment::default() };
                let fix = || Ok(ask_walk(&pool, &plan, &mapped, Walk::Fix(Domain::N), &segment));
                let fixed = on_large_stack(fix).unwrap().unwrap();
                assert_eq!(
                    (fixed.first[0].dest.kind, fixed.first[0].dest.id),
                    (Kind::TMP_EXP, number)
                );
                seen += 1;
            }
        }
        assert!(seen > 100, "{} columns", seen);
    }

    #[test]
    fn names_differ() {
        let names: HashSet<&str> = Walk::ALL.iter().map(|walk| walk.name()).collect();
        assert_eq!(names.len(), Walk::ALL.len());
    }
}

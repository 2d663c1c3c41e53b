//! The walks over lists by a plan: fixing, the query code's trees, and dimensions.

use crate::frames::Frames;
use crate::list::{List, Segment};
use crate::plan::Plan;
use crate::refusal::Refusal;
use enonkasse_sys as library;

/// The domain that a segment is fixed for.
#[derive(Clone, Copy, Debug, PartialEq, Eq, Hash)]
pub enum Domain {
    /// "n"
    N,
    /// "2ns"
    Extended,
}

impl Domain {
    fn byte(self) -> u8 {
        match self {
            Domain::N => 0,
            Domain::Extended => 1,
        }
    }
}

impl Segment {
    fn lists(&mut self) -> [&mut [u8]; 3] {
        [&mut self.first.bytes, &mut self.i.bytes, &mut self.last.bytes]
    }
}

/// Fixes the references of a segment, whose counter goes on.
///
/// # Errors
///
/// A refusal of the frames, the plan or the lists; then nothing has changed.
pub fn fix(
    frames: &Frames,
    plan: &Plan,
    domain: Domain,
    segment: &mut Segment,
) -> Result<(), Refusal> {
    let (record, mut counter) = (plan.record(), [segment.counter]);
    let (frames, domain, [first, i, last]) = (frames.bytes(), domain.byte(), segment.lists());
    Refusal::check(library::fix(frames, &record, domain, &mut counter, first, i, last))?;
    segment.counter = counter[0];
    Ok(())
}

/// Makes trees of the cm of a segment, for the verifier's query code.
///
/// # Errors
///
/// A refusal of the frames, the plan or the lists; then nothing has changed.
pub fn query(frames: &Frames, plan: &Plan, segment: &mut Segment) -> Result<(), Refusal> {
    let [first, i, last] = segment.lists();
    Refusal::check(library::query(frames.bytes(), &plan.record(), first, i, last))
}

/// Gives every reference of a segment its dimension, the x kinds that of this pass.
///
/// # Errors
///
/// A refusal of the frames, the plan or the lists; then nothing has changed.
pub fn dimension(
    frames: &Frames,
    plan: &Plan,
    dim_x: u16,
    segment: &mut Segment,
) -> Result<(), Refusal> {
    let [first, i, last] = segment.lists();
    Refusal::check(library::dimension(frames.bytes(), &plan.record(), dim_x, first, i, last))
}

/// The same for a first list alone, where the x kinds have dimension 3.
///
/// # Errors
///
/// A refusal of the frames, the plan or the list; then nothing has changed.
pub fn dimension_first(frames: &Frames, plan: &Plan, first: &mut List) -> Result<(), Refusal> {
    Refusal::check(library::dimension_first(frames.bytes(), &plan.record(), &mut first.bytes))
}

//! The whole run: a pool and its requests in one call.

use crate::frames::Frames;
use crate::list::List;
use crate::refusal::Refusal;
use enonkasse_sys::{self as library, LIST_ROOM, STEP_SIZE};

/// What a whole run gives.
#[derive(Clone, Debug, PartialEq, Eq)]
pub struct Run {
    /// The first list.
    pub first: List,
    /// The temporary counter after it.
    pub counter: usize,
}

/// Serves the requests among the frames on a fresh context, and builds the first list: what the program `steps`
/// prints.
///
/// # Errors
///
/// The refusal of the frames, of the pool, or of the first request that has one.
pub fn run(frames: &Frames) -> Result<Run, Refusal> {
    let mut list = vec![0; STEP_SIZE * LIST_ROOM];
    let mut totals = [0; 2];
    Refusal::check(library::run(frames.bytes(), &mut list, &mut totals))?;
    let [steps, counter] = totals;
    list.truncate(STEP_SIZE * steps);
    Ok(Run { first: List::from_bytes(list), counter })
}

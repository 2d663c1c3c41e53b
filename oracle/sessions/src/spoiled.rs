//! Faults in what is lent to a walk, and the number that they get.

use crate::planned::{Lent, Stage};
use asked::question::Refused;
use enonkasse_sys::{REFERENCE_SIZE, STEP_SIZE};
use judge::kinds::Step;
use judge::pool::{MAX_EXPRESSIONS, MAX_NODES};
use judge::refusals::{FULL, MALFORMED, NO_RULE};
use plans::input::Input;
use plans::original_map::expected;
use plans::plan::Plan;

#[derive(Clone, Copy, Debug, PartialEq, Eq)]
pub enum Fault {
    Domain,
    Counter,
    /// A list with a byte too few, or too many.
    CutList,
    LongList,
    /// Of a reference that counts.
    Kind,
    Prime,
    SourceCount,
    /// The first step is none, or has a source too few. The original's fixing does not look at that.
    UnknownStep,
    FewSources,
    ShortPlan,
    LongPlan,
    ShortFrames,
    GarbageFrames,
}

const OF_STEPS: [Fault; 4] = [Fault::CutList, Fault::Kind, Fault::Prime, Fault::SourceCount];
const OF_FIX: [Fault; 2] = [Fault::Domain, Fault::Counter];
const OF_FIRST_STEP: [Fault; 2] = [Fault::UnknownStep, Fault::FewSources];

const NO_STEPS: [u8; 4] = [0, 5, 9, u8::MAX];
const NO_KINDS: [u8; 6] = [0, 1, 7, 0x1b, 0x29, u8::MAX];
const NO_DOMAINS: [u8; 2] = [2, u8::MAX];
const NO_COUNTERS: [usize; 2] = [1 << 16, usize::MAX];

/// Any number that what is lent determines.
fn drawn(lent: &Lent) -> usize {
    let bytes = lent.frames.iter().chain(&lent.plan).chain(lent.lists.iter().flatten());
    bytes.fold(lent.counter[0], |sum, &byte| {
        sum.wrapping_mul(0x0100_0000_01b3).wrapping_add(usize::from(byte))
    }) >> 17
}

/// The list that has a step, if one has.
fn list_with_a_step(stage: Stage, lent: &Lent) -> Option<usize> {
    (0..stage.lists()).rev().find(|&place| !lent.lists[place].is_empty())
}

/// The record that a walk meets first.
fn first_step(lent: &mut Lent) -> &mut [u8] {
    lent.lists.iter_mut().find(|list| !list.is_empty()).expect("a step")
}

impl Fault {
    /// Those of frames and plan.
    pub const OF_READING: [Fault; 4] =
        [Fault::ShortPlan, Fault::LongPlan, Fault::ShortFrames, Fault::GarbageFrames];

    /// One that can be put into this call.
    pub fn of(stage: Stage, lent: &Lent) -> Fault {
        let mut faults = Fault::OF_READING.to_vec();
        faults.push(Fault::LongList);
        if let Stage::Fix(_) = stage {
            faults.extend(OF_FIX);
        }
        if list_with_a_step(stage, lent).is_some() {
            faults.extend(OF_STEPS);
            // The dimension pass asks for a source at its turn, and is compared with the original in that.
            if let Stage::Fix(_) | Stage::Query = stage {
                faults.extend(OF_FIRST_STEP);
            }
        }
        faults[drawn(lent) % faults.len()]
    }

    pub fn put_in(self, stage: Stage, lent: &mut Lent) -> Stage {
        let any = drawn(lent) / 64;
        let list = list_with_a_step(stage, lent);
        match self {
            Fault::Domain => return Stage::Fix(NO_DOMAINS[any % NO_DOMAINS.len()]),
            Fault::Counter => lent.counter = [NO_COUNTERS[any % NO_COUNTERS.len()]],
            Fault::CutList => {
                lent.lists[list.expect("a step")].pop();
            }
            Fault::LongList => lent.lists[any % stage.lists()].push(0),
            Fault::Kind | Fault::Prime | Fault::SourceCount => {
                self.put_into_step(any, &mut lent.lists[list.expect("a step")]);
            }
            Fault::UnknownStep => first_step(lent)[0] = NO_STEPS[any % NO_STEPS.len()],
            Fault::FewSources => {
                let step = first_step(lent);
                step[1] =
                    Step::from_byte(step[0]).map_or(0, |known| known.source_count() as u8 - 1);
            }
            Fault::ShortPlan | Fault::LongPlan => self.put_into_plan(&mut lent.plan),
            Fault::ShortFrames => {
                lent.frames.pop();
            }
            // A length, and a frame that begins with no known byte.
            Fault::GarbageFrames => lent.frames.extend([0, 5, 4, 0, 0, 0, 0]),
        }
        stage
    }

    /// One byte, or two where one would make it well formed.
    fn put_into_plan(self, plan: &mut Vec<u8>) {
        loop {
            match self {
                Fault::LongPlan => plan.push(0),
                _ => plan.truncate(plan.len().saturating_sub(1)),
            }
            if Plan::decode(plan).is_none() {
                return;
            }
        }
    }

    fn put_into_step(self, any: usize, list: &mut [u8]) {
        let step = STEP_SIZE * (any % (list.len() / STEP_SIZE));
        let count = usize::from(list[step + 1]);
        let reference = step + 4 + REFERENCE_SIZE * (any / 64 % (1 + count));
        match self {
            Fault::Kind => list[reference] = NO_KINDS[any / 512 % NO_KINDS.len()],
            Fault::Prime => list[reference + 1] = 2,
            _ => list[step + 1] = 4,
        }
    }

    /// Frames are read first, then the plan, then the rest.
    pub fn number(self, input: &Input, plan: &[u8]) -> u8 {
        let past_limits =
            input.pool.nodes.len() > MAX_NODES || input.pool.expressions.len() > MAX_EXPRESSIONS;
        if past_limits {
            return FULL;
        }
        if let Fault::ShortFrames | Fault::GarbageFrames = self {
            return MALFORMED;
        }
        if OF_FIRST_STEP.contains(&self) {
            // Whatever else is refused, but in a list, comes first.
            return match expected(input) {
                Err(Refused::With(number)) => number,
                _ => NO_RULE,
            };
        }
        Plan::read(plan).err().unwrap_or(MALFORMED)
    }
}

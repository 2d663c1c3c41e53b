//! The constraint polynomial: [`constraint`] does all of it or nothing; or in pieces that are called one after the other.
//!
//! [`search`](crate::search::search) chooses the expressions that become columns, the members; [`extend`] adds the constraint
//! to the pool. The members served on the first context, and a build, are step3: [`step3`]. The members marked in
//! the second context, the constraint served on it, the closing product, and a build, are step42ns: [`step42ns`].

use crate::context::Context;
use crate::frames::Frames;
use crate::list::Segment;
use crate::pool::{ExpressionId, Request};
use crate::refusal::Refusal;
use crate::search::Found;
use enonkasse_sys::{
    self as library, CONSTRAINT_NUMBERS, CONSTRAINT_TOTALS, MAX_FRAMES_SIZE, SET_WORDS,
};

/// What the columns are counted from.
#[derive(Clone, Copy, Debug, Default, PartialEq, Eq, Hash)]
pub struct Columns {
    /// The columns of the first stage.
    pub n_cm1: usize,
    /// Those of the second.
    pub n_cm2: usize,
    /// nCommitments: all that there are so far.
    pub commitments: usize,
}

/// A pool with its constraint.
#[derive(Clone, Debug, PartialEq, Eq)]
pub struct Extended {
    /// The frames of the pool with it.
    pub frames: Frames,
    /// The constraint, its last expression.
    pub expression: ExpressionId,
    /// The members, ascending, with their cm numbers.
    pub intermediates: Vec<(ExpressionId, u16)>,
    /// The columns of the third stage.
    pub n_cm3: usize,
    /// The cm numbers of the quotients, which are the columns of the fourth stage.
    pub qs: Vec<u16>,
    /// nCommitments with these.
    pub commitments: usize,
}

/// Adds the constraint polynomial of the identities to a pool, with what a search found and the number of the
/// challenge "vc".
///
/// # Errors
///
/// The pool's refusal; 1 where the members are none of this pool's; 17 and 3 of the identities; 9 where a limit is passed; 11
/// where there are fewer commitments than n_cm1 and n_cm2 say.
pub fn extend(
    frames: &Frames,
    identities: &[ExpressionId],
    found: &Found,
    vc: u16,
    columns: Columns,
) -> Result<Extended, Refusal> {
    let identities: Vec<u64> = identities.iter().map(|expression| expression.0.into()).collect();
    let (mut out, mut numbers) = (vec![0; MAX_FRAMES_SIZE], [0; CONSTRAINT_NUMBERS]);
    Refusal::check(library::constraint_pool(
        frames.bytes(),
        &identities,
        &found.words(),
        vc,
        columns.n_cm1,
        columns.n_cm2,
        columns.commitments,
        found.q as usize,
        &mut out,
        &mut numbers,
    ))?;
    let [_, n_cm3, n_cm4, first_q, commitments, size] = numbers;
    out.truncate(size);
    let numbers = [n_cm3, n_cm4, first_q, commitments];
    Ok(Extended::told(Frames::from_bytes(out), found, columns.commitments, numbers))
}

/// What is asked of the whole.
#[derive(Clone, Debug, PartialEq, Eq)]
pub struct Question {
    /// The identities, numbers of expressions.
    pub identities: Vec<ExpressionId>,
    /// The number of the challenge "vc".
    pub vc: u16,
    /// The bits of the trace.
    pub n_bits: u8,
    /// The bits of its extension.
    pub n_bits_ext: u8,
    /// The most visits of the search.
    pub limit: u64,
    /// What the columns are counted from.
    pub columns: Columns,
}

/// The constraint polynomial.
#[derive(Clone, Debug, PartialEq, Eq)]
pub struct Constraint {
    /// What the search found.
    pub found: Found,
    /// The pool with the constraint, its columns and numbers.
    pub extended: Extended,
    /// The members, made on the first context.
    pub step3: Segment,
    /// The constraint, made on the second.
    pub step42ns: Segment,
}

/// All of it, or a refusal that leaves both contexts as they were.
///
/// # Errors
///
/// The pool's refusal and 1 of a context; the search's; 9 where a limit is passed, 11 of the counts; 5 of step3 and of step42ns; 9
/// where a context's list is full.
pub fn constraint(
    frames: &Frames,
    question: &Question,
    first: &mut Context,
    second: &mut Context,
) -> Result<Constraint, Refusal> {
    let identities: Vec<u64> = question.identities.iter().map(|e| e.0.into()).collect();
    let mut out = vec![0; MAX_FRAMES_SIZE];
    let (mut chosen, mut found, mut totals) = ([0; SET_WORDS], [0; 2], [0; CONSTRAINT_TOTALS]);
    let (mut lists, mut lists_2ns) = (first.rooms(), second.rooms());
    let Columns { n_cm1, n_cm2, commitments } = question.columns;
    {
        let ([a, i, z], [a_2ns, i_2ns, z_2ns]) = (&mut lists, &mut lists_2ns);
        let ((context, list), (context_2ns, list_2ns)) = (first.parts(), second.parts());
        Refusal::check(library::constraint(
            frames.bytes(),
            &identities,
            question.vc,
            question.n_bits.into(),
            question.n_bits_ext.into(),
            question.limit,
            n_cm1,
            n_cm2,
            commitments,
            context,
            list,
            a,
            i,
            z,
            context_2ns,
            list_2ns,
            a_2ns,
            i_2ns,
            z_2ns,
            &mut out,
            &mut chosen,
            &mut found,
            &mut totals,
        ))?;
    }
    let [a, i, z, a_2ns, i_2ns, z_2ns, size] = totals;
    out.truncate(size);
    let [q, visits] = found;
    let found = Found { set: Found::members(&chosen), q, visits };
    let first_q = commitments + found.set.len();
    let numbers = [first_q - n_cm1 - n_cm2, q as usize, first_q, first_q + q as usize];
    Ok(Constraint {
        extended: Extended::told(Frames::from_bytes(out), &found, commitments, numbers),
        found,
        step3: first.segment(lists, [a, i, z]),
        step42ns: second.segment(lists_2ns, [a_2ns, i_2ns, z_2ns]),
    })
}

impl Extended {
    /// With n_cm3, n_cm4, the first of the qs, and nCommitments after them.
    fn told(frames: Frames, found: &Found, commitments: usize, numbers: [usize; 4]) -> Extended {
        let [n_cm3, n_cm4, first_q, after] = numbers;
        // A column's number has 16 bits, else it is refused.
        let column = |number: usize| number as u16;
        Extended {
            // The constraint is the last expression.
            expression: ExpressionId(frames.expression_count() as u16 - 1),
            intermediates: found.set.iter().copied().zip((commitments..).map(column)).collect(),
            n_cm3,
            qs: (first_q..first_q + n_cm4).map(column).collect(),
            commitments: after,
            frames,
        }
    }
}

/// step3: the members on the caller's context.
///
/// # Errors
///
/// The refusal of a member; then nothing has changed. 1 where the context is not of this pool.
pub fn step3(extended: &Extended, context: &mut Context) -> Result<Segment, Refusal> {
    let members = extended.intermediates.iter().map(|&(member, _)| Request::of(member));
    let frames = extended.frames.with_requests(&members.collect::<Vec<_>>());
    all_or_nothing(context, |context| {
        context.serve(&frames)?;
        context.build(&extended.frames)
    })
}

/// step42ns: the constraint on the second context, in which its members stand in columns.
///
/// # Errors
///
/// The refusal of the constraint; then nothing has changed. 1 where the context is not of this pool.
pub fn step42ns(extended: &Extended, context: &mut Context) -> Result<Segment, Refusal> {
    let members: Vec<_> = extended.intermediates.iter().map(|&(member, _)| member).collect();
    let expressions = usize::from(extended.expression.0) + 1;
    let frames = extended.frames.with_requests(&[Request::of(extended.expression)]);
    all_or_nothing(context, |context| {
        context.mark_members(&members, expressions)?;
        context.serve(&frames)?;
        context.close(expressions)?;
        context.build(&extended.frames)
    })
}

/// Works on a copy, which replaces the context where all went well.
fn all_or_nothing<T>(
    context: &mut Context,
    work: impl FnOnce(&mut Context) -> Result<T, Refusal>,
) -> Result<T, Refusal> {
    let mut copy = context.clone();
    let done = work(&mut copy)?;
    *context = copy;
    Ok(done)
}

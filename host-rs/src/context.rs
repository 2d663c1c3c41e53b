//! Contexts: what has been generated, marks and counters, from one request to the next.

use crate::frames::Frames;
use crate::kinds::ReferenceKind;
use crate::list::{List, Segment};
use crate::pool::ExpressionId;
use crate::refusal::Refusal;
use enonkasse_sys::{
    self as library, BLOCK_COUNT_AT, MARKS_AT, MAX_EXPRESSIONS, ROWS, STEP_COUNT_AT, STEP_SIZE,
    TEMPORARY_COUNT_AT,
};

/// Steps that always suffice for what one pool gives to requests that ask for no result.
pub const ROOM: usize = library::LIST_ROOM;

/// A context and its list. It belongs to one pool: with another it may be refused, or its marks
/// speak of other expressions.
#[derive(Clone, Debug, PartialEq, Eq)]
pub struct Context {
    bytes: Vec<u8>,
    list: Vec<u8>,
}

impl Default for Context {
    fn default() -> Context {
        Context::new()
    }
}

impl Context {
    /// A fresh context with room for [`ROOM`] steps.
    pub fn new() -> Context {
        Context::with_room(ROOM)
    }

    /// A fresh context with room for so many steps.
    pub fn with_room(steps: usize) -> Context {
        let list = vec![0; STEP_SIZE * steps];
        let mut context = Context { bytes: vec![0; library::CONTEXT_SIZE], list };
        context.fresh();
        context
    }

    /// Makes it fresh again: no mark, no block, no temporary.
    pub fn fresh(&mut self) {
        let answer = library::fresh(&mut self.bytes);
        assert_eq!(answer, 0, "a context of its size is made fresh");
    }

    /// Serves the requests among the frames, in their order.
    ///
    /// # Errors
    ///
    /// The refusal of the first request that has one, or of the pool; then nothing has changed.
    pub fn serve(&mut self, frames: &Frames) -> Result<(), Refusal> {
        self.call(frames, 0, 0)
    }

    /// The same, where the last request asks for its result also in a cell, at its own row.
    ///
    /// # Errors
    ///
    /// As of [`Context::serve`]; 1 where the kind is number, 7 and 8 where a result cannot be had.
    pub fn serve_into(
        &mut self,
        frames: &Frames,
        kind: ReferenceKind,
        id: u16,
    ) -> Result<(), Refusal> {
        self.call(frames, kind.byte(), id)
    }

    fn call(&mut self, frames: &Frames, kind: u8, id: u16) -> Result<(), Refusal> {
        let answer = library::serve(frames.bytes(), kind, id, &mut self.bytes, &mut self.list);
        Refusal::check(answer)
    }

    /// Builds the three lists of what was generated. Then its blocks are gone, every expression with
    /// neither keep nor idQ is marked both ways, and the temporary counter goes on.
    ///
    /// # Errors
    ///
    /// The pool's refusal, or 1 where the context is not of this pool; then nothing has changed.
    pub fn build(&mut self, frames: &Frames) -> Result<Segment, Refusal> {
        // The i and last lists are parts of the first.
        let room = vec![0; STEP_SIZE * self.step_count()];
        let (mut lists, mut sizes) = ([room.clone(), room.clone(), room], [0; 3]);
        let [first, i, last] = &mut lists;
        Refusal::check(library::build(
            frames.bytes(),
            &mut self.bytes,
            &self.list,
            first,
            i,
            last,
            &mut sizes,
        ))?;
        Ok(self.segment(lists, sizes))
    }

    /// Three lists of so many steps, and the counter as it stands.
    pub(crate) fn segment(&self, mut lists: [Vec<u8>; 3], sizes: [usize; 3]) -> Segment {
        lists.iter_mut().zip(sizes).for_each(|(list, size)| list.truncate(STEP_SIZE * size));
        let [first, i, last] = lists.map(List::from_bytes);
        Segment { first, i, last, counter: self.temporary_count() }
    }

    /// Its bytes and its list, to be lent.
    pub(crate) fn parts(&mut self) -> (&mut [u8], &mut [u8]) {
        (&mut self.bytes, &mut self.list)
    }

    /// Rooms for the lists of a build of all that its list has room for.
    pub(crate) fn rooms(&self) -> [Vec<u8>; 3] {
        let room = vec![0; self.list.len()];
        [room.clone(), room.clone(), room]
    }

    /// The steps generated since it was fresh or built: the first list of a build.
    pub fn list(&self) -> List {
        List::from_bytes(self.list[..STEP_SIZE * self.step_count()].to_vec())
    }

    /// How many steps those are.
    pub fn step_count(&self) -> usize {
        self.number_at(STEP_COUNT_AT)
    }

    /// How many blocks those are.
    pub fn block_count(&self) -> usize {
        self.number_at(BLOCK_COUNT_AT)
    }

    /// The temporary counter.
    pub fn temporary_count(&self) -> usize {
        self.number_at(TEMPORARY_COUNT_AT)
    }

    /// Whether an expression is marked, at this row or at the next.
    pub fn is_marked(&self, expression: ExpressionId, prime: bool) -> bool {
        let cell = ROWS * usize::from(expression.0) + usize::from(prime);
        cell < ROWS * MAX_EXPRESSIONS && self.bytes[MARKS_AT + cell] != 0
    }

    /// Forgets every mark, as is done after a build where all is to be generated again.
    ///
    /// # Errors
    ///
    /// [`Refusal::Malformed`] where blocks stand: one without its mark is malformed.
    pub fn clear_marks(&mut self) -> Result<(), Refusal> {
        if self.block_count() != 0 {
            return Err(Refusal::Malformed);
        }
        self.bytes[MARKS_AT..][..ROWS * MAX_EXPRESSIONS].fill(0);
        Ok(())
    }

    /// Marks an expression at this row and the next, so that nothing generates it: its value stands in
    /// a column. Where the pool does not have it, the context is then refused as malformed.
    ///
    /// # Errors
    ///
    /// [`Refusal::NotThere`] where no pool can have it.
    pub fn mark_both_ways(&mut self, expression: ExpressionId) -> Result<(), Refusal> {
        let expression = usize::from(expression.0);
        if expression >= MAX_EXPRESSIONS {
            return Err(Refusal::NotThere);
        }
        self.bytes[MARKS_AT + ROWS * expression..][..ROWS].fill(1);
        Ok(())
    }

    /// Marks members of a pool that has so many expressions at both rows.
    ///
    /// # Errors
    ///
    /// 1 where the context is not of such a pool, 3 of a member, 9 of too many expressions.
    pub fn mark_members(
        &mut self,
        members: &[ExpressionId],
        expressions: usize,
    ) -> Result<(), Refusal> {
        let members: Vec<u64> = members.iter().map(|member| member.0.into()).collect();
        Refusal::check(library::mark(&members, expressions, &mut self.bytes, &self.list))
    }

    /// Puts the closing product, q0 = the last destination times Zi, at the end of the last block.
    ///
    /// # Errors
    ///
    /// 1 where the context is not of a pool of so many expressions, 8 where no block stands, 9 where the list is
    /// full.
    pub fn close(&mut self, expressions: usize) -> Result<(), Refusal> {
        Refusal::check(library::close(expressions, &mut self.bytes, &mut self.list))
    }

    fn number_at(&self, at: usize) -> usize {
        usize::from(u16::from_be_bytes([self.bytes[at], self.bytes[at + 1]]))
    }
}

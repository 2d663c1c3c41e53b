//! Bad input to the exported functions: each gets its number, and nothing lent has changed.

use crate::record::{framed_hex, UNWRITTEN};
use enonkasse_sys::{
    build, fresh, serve, BLOCKS_AT, BLOCK_COUNT_AT, BLOCK_SIZE, CONTEXT_SIZE, MARKS_AT,
    STEP_COUNT_AT, STEP_SIZE, TEMPORARY_COUNT_AT,
};
use judge::refusals::{FULL, MALFORMED, NOT_THERE, NO_BLOCK, NO_PRIMED_MARK};

/// cm0·cm1 + cm2, two expressions, and requests.
const POOL: [&str; 8] = [
    "011000000000",
    "011000000100",
    "01030000000200000001",
    "011000000200",
    "01010000000200020003",
    "011000000300",
    "02000400",
    "02000500",
];
const FUSED: &str = "0300000001";
const PLAIN: &str = "0300000000";
const PRIMED: &str = "0300000101";
const OTHER: &str = "0300010000";
const ABSENT: &str = "0300020000";

fn frames(requests: &[&str]) -> Vec<u8> {
    framed_hex(POOL.iter().chain(requests))
}

/// A context and its list.
#[derive(Clone, PartialEq)]
struct Lent {
    context: Vec<u8>,
    list: Vec<u8>,
}

impl Lent {
    fn new(steps: usize) -> Lent {
        let mut lent = Lent {
            context: vec![UNWRITTEN; CONTEXT_SIZE],
            list: vec![UNWRITTEN; steps * STEP_SIZE],
        };
        assert_eq!(fresh(&mut lent.context), 0);
        lent
    }

    fn serves(&mut self, requests: &[&str], kind: u8, id: u16) -> u8 {
        let before = self.clone();
        let number = serve(&frames(requests), kind, id, &mut self.context, &mut self.list);
        assert!(number == 0 || *self == before, "a refusal with {} changed what was lent", number);
        number
    }

    fn builds(&mut self, rooms: [usize; 3]) -> u8 {
        let before = self.clone();
        let mut lists = rooms.map(|room| vec![UNWRITTEN; room]);
        let mut sizes = [usize::MAX; 3];
        let ([first, i, last], frames) = (&mut lists, frames(&[]));
        let number = build(&frames, &mut self.context, &self.list, first, i, last, &mut sizes);
        let untouched = rooms.map(|room| vec![UNWRITTEN; room]);
        let kept = *self == before && lists == untouched && sizes == [usize::MAX; 3];
        assert!(number == 0 || kept, "a refusal with {} changed what was lent", number);
        number
    }

    fn set(&mut self, at: usize, number: u16) {
        self.context[at..at + 2].copy_from_slice(&number.to_be_bytes());
    }
}

/// With the blocks of expressions 0 and 1 in it.
fn served() -> Lent {
    let mut lent = Lent::new(8);
    assert_eq!(lent.serves(&[FUSED, OTHER], 0, 0), 0);
    lent
}

fn is_refused(label: &str, lent: Lent) {
    assert_eq!(lent.clone().serves(&[FUSED], 0, 0), MALFORMED, "{}", label);
    assert_eq!(lent.clone().builds([8 * STEP_SIZE; 3]), MALFORMED, "{}", label);
}

#[test]
fn a_good_context_is_taken() {
    assert_eq!(served().serves(&[PRIMED], 0, 0), 0);
    assert_eq!(served().builds([2 * STEP_SIZE; 3]), 0);
}

#[test]
fn a_context_of_another_size_is_malformed() {
    for size in [0, CONTEXT_SIZE - 1, CONTEXT_SIZE + 1] {
        let mut lent = served();
        lent.context.resize(size, 0);
        assert_eq!(fresh(&mut lent.context.clone()), MALFORMED);
        is_refused("size", lent);
    }
}

#[test]
fn a_context_with_a_bad_byte_is_malformed() {
    let second = BLOCKS_AT + BLOCK_SIZE;
    let marks_past_the_pool = MARKS_AT + 4;
    for (label, at, byte) in [
        ("version", 0, 1),
        ("mode", 1, 1),
        ("rows", 2, 3),
        ("spare", 3, 1),
        ("a mark of 2", MARKS_AT + 1, 2),
        ("a mark beyond the pool", marks_past_the_pool, 1),
        ("a mark of the last cell", BLOCKS_AT - 1, 1),
        ("a block without its mark", MARKS_AT, 0),
    ] {
        let mut lent = served();
        lent.context[at] = byte;
        is_refused(label, lent);
    }
    for (label, at, number) in [
        ("more blocks than cells", BLOCK_COUNT_AT, 1025),
        ("a block more than there is", BLOCK_COUNT_AT, 3),
        ("a block fewer than there is", BLOCK_COUNT_AT, 1),
        ("steps past the list", STEP_COUNT_AT, 9),
        ("steps that do not add up", STEP_COUNT_AT, 3),
        ("an expression that is not there", second, 2),
        ("a prime that is no row", second + 2, 2),
        ("a block of no step", second + 4, 0),
        ("the cell of another block", second, 0),
    ] {
        let mut lent = served();
        lent.set(at, number);
        is_refused(label, lent);
    }
}

#[test]
fn what_a_context_does_not_say_may_be_anything() {
    let mut lent = served();
    lent.context[BLOCKS_AT + 2 * BLOCK_SIZE..].fill(0xff);
    lent.list.fill(0xff);
    assert_eq!(lent.serves(&[PRIMED], 0x10, 7), NO_PRIMED_MARK);
    assert_eq!(lent.serves(&[PRIMED], 0, 0), 0);
    assert_eq!(lent.builds([3 * STEP_SIZE; 3]), 0);
}

#[test]
fn a_result_is_of_a_reference_kind_but_number() {
    for kind in 0..=u8::MAX {
        let fine = matches!(kind, 0x10..=0x13 | 0x15..=0x1a | 0x20..=0x28);
        let number = if fine || kind == 0 { 0 } else { MALFORMED };
        assert_eq!(Lent::new(8).serves(&[FUSED], kind, 0), number, "kind {:02x}", kind);
    }
    assert_eq!(Lent::new(8).serves(&[FUSED], 0, 1), MALFORMED);
    assert_eq!(Lent::new(8).serves(&[], 0x10, 0), MALFORMED);
    assert_eq!(Lent::new(8).serves(&[], 0, 0), 0);
}

#[test]
fn a_result_needs_a_mark_or_a_block() {
    assert_eq!(Lent::new(8).serves(&[PRIMED], 0x10, 0), NO_PRIMED_MARK);
    assert_eq!(Lent::new(8).serves(&[PRIMED, PRIMED], 0x10, 0), 0);
    let mut built = served();
    assert_eq!(built.builds([2 * STEP_SIZE; 3]), 0);
    assert_eq!(built.serves(&[FUSED], 0x10, 0), NO_BLOCK);
    assert_eq!(built.serves(&[FUSED], 0, 0), 0);
}

#[test]
fn a_request_beyond_the_pool_is_not_there() {
    assert_eq!(Lent::new(8).serves(&[ABSENT], 0, 0), NOT_THERE);
    assert_eq!(Lent::new(8).serves(&[FUSED, ABSENT], 0x10, 0), NOT_THERE);
}

#[test]
fn frames_that_are_cut_off_are_malformed() {
    let whole = frames(&[FUSED]);
    for size in [whole.len() - 1, whole.len() - FUSED.len() / 2, 1] {
        let mut lent = Lent::new(8);
        let before = lent.clone();
        assert_eq!(serve(&whole[..size], 0, 0, &mut lent.context, &mut lent.list), MALFORMED);
        assert!(lent == before);
    }
}

#[test]
fn a_list_too_short_by_one_byte_is_full() {
    for (requests, kind, steps) in [
        (&[FUSED][..], 0, 1),
        (&[PLAIN][..], 0, 2),
        (&[FUSED][..], 0x10, 2),
        (&[FUSED, OTHER][..], 0, 2),
        (&[FUSED, OTHER, FUSED][..], 0x10, 3),
    ] {
        for (size, number) in [(steps * STEP_SIZE, 0), (steps * STEP_SIZE - 1, FULL)] {
            let mut lent = Lent::new(steps);
            lent.list.truncate(size);
            assert_eq!(lent.serves(requests, kind, 0), number, "{:?}", requests);
        }
    }
}

#[test]
fn each_list_of_a_build_too_short_by_one_byte_is_full() {
    for short in 0..3 {
        let mut rooms = [2 * STEP_SIZE; 3];
        rooms[short] -= 1;
        assert_eq!(served().builds(rooms), FULL);
    }
}

#[test]
fn a_counter_of_more_than_16_bits_is_full() {
    for (request, number) in [(FUSED, 0), (PLAIN, FULL)] {
        let mut lent = Lent::new(8);
        lent.set(TEMPORARY_COUNT_AT, u16::MAX);
        assert_eq!(lent.serves(&[request], 0, 0), number);
    }
}

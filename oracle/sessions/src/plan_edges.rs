//! Bad input to the walks by a plan: each gets its number, and nothing lent has changed; and the stored
//! vectors.

use crate::planned::{Lent, Port, Sent, Stage};
use asked::checks::answers_the_stored_vectors;
use enonkasse_sys::STEP_SIZE;
use judge::case::{add, cm, constant, exp, leaf, mul, neg};
use judge::kinds::Kind;
use judge::pool::MAX_NODES;
use judge::refusals::{CHILD_COUNT, FULL, MALFORMED, NOT_THERE, NO_DIMENSION};
use plans::input::Input;
use plans::lists::Segment;
use plans::plan::Plan;
use plans::written::{intermediate, pool, pu, ratio, small, with_columns};

const DESTINATION: usize = 4;
const SOURCE: usize = 16;

const STAGES: [Stage; 5] =
    [Stage::Fix(0), Stage::Fix(1), Stage::Query, Stage::Dimension(3), Stage::DimensionFirst];

/// e0 = cm0·cm1, e1 = e0 + q0, e2 = -e1, e3 a const; q0 is e3. One of everything.
fn input() -> Input {
    let trees = [mul(cm(0), cm(1)), add(exp(0), leaf(Kind::Q, 0)), neg(exp(1)), constant(0)];
    let plan = Plan {
        q_deg: 1,
        c_exp: 2,
        pu: vec![pu(0, 1, 2, 3)],
        pe: vec![ratio(0, 3)],
        ci: vec![ratio(2, 2)],
        intermediates: vec![intermediate(0, 7)],
        qs: vec![4],
        q2exp: vec![3],
        ..small()
    };
    Input::new(pool(&trees), &with_columns(2, plan))
}

/// Steps that every walk takes.
fn lent_on(input: &Input) -> Lent {
    let mut segment = Segment::default();
    for line in ["first tmp:0 = add cm:0 cm:1'", "i tmp:1 = mul tmp:0 x:0", "last q:0 = copy tmp:1"]
    {
        assert_eq!(segment.take_line(line), Ok(true));
    }
    Sent::new(input, &segment).lent
}

fn lent() -> Lent {
    lent_on(&input())
}

/// The answer's number; a refusal must leave all as it was, and an answer frames and plan.
fn number(stage: Stage, lent: &Lent) -> u8 {
    let mut after = lent.clone();
    let number = stage.call(&mut after);
    if number != 0 {
        assert_eq!(after, *lent, "refused with {}", number);
    }
    assert_eq!((&after.frames, &after.plan), (&lent.frames, &lent.plan));
    number
}

/// The number that every walk gives to what was changed.
fn all_give(expected: u8, change: impl Fn(&mut Lent)) {
    for stage in STAGES {
        let mut lent = lent();
        change(&mut lent);
        assert_eq!(number(stage, &lent), expected, "{:?}", stage);
    }
}

#[test]
fn every_walk_takes_the_lists() {
    all_give(0, |_| {});
    all_give(0, |lent| lent.lists = Default::default());
}

#[test]
fn a_plan_of_another_size_is_malformed() {
    for size in 0..lent().plan.len() {
        all_give(MALFORMED, |lent| lent.plan.truncate(size));
    }
    all_give(MALFORMED, |lent| lent.plan.push(0));
}

#[test]
fn there_are_two_domains() {
    for domain in 0..=u8::MAX {
        let expected = if domain < 2 { 0 } else { MALFORMED };
        assert_eq!(number(Stage::Fix(domain), &lent()), expected, "{}", domain);
    }
}

#[test]
fn a_counter_has_16_bits() {
    for (counter, expected) in [(65_535, 0), (65_536, MALFORMED), (usize::MAX, MALFORMED)] {
        let lent = Lent { counter: [counter], ..lent() };
        assert_eq!(number(Stage::Fix(1), &lent), expected, "{}", counter);
    }
}

/// An exp that is no intermediate takes a new temporary.
#[test]
fn a_counter_that_would_pass_16_bits_is_full() {
    for (counter, expected) in [(65_534, 0), (65_535, FULL)] {
        let mut lent = Lent { counter: [counter], ..lent() };
        lent.lists[0][SOURCE] = Kind::EXP.byte();
        lent.lists[0][SOURCE + 3] = 3;
        assert_eq!(number(Stage::Fix(1), &lent), expected);
    }
}

#[test]
fn a_list_is_of_whole_records() {
    for size in 0..=STEP_SIZE {
        let expected = if size % STEP_SIZE == 0 { 0 } else { MALFORMED };
        for stage in STAGES {
            for place in 0..stage.lists() {
                let mut lent = lent();
                // Nothing reads what a list taken away has written.
                lent.lists = Default::default();
                lent.lists[place] = self::lent().lists[0][..size].to_vec();
                assert_eq!(number(stage, &lent), expected, "{:?} {} {}", stage, place, size);
            }
        }
    }
}

#[test]
fn an_unknown_kind_is_malformed() {
    for kind in 0..=u8::MAX {
        let known = Kind::references().any(|reference| reference.byte() == kind);
        for stage in STAGES {
            for at in [DESTINATION, SOURCE] {
                let mut lent = lent();
                lent.lists[0][at] = kind;
                let is_malformed = number(stage, &lent) == MALFORMED;
                assert_eq!(is_malformed, !known, "{:?} {} {:02x}", stage, at, kind);
            }
        }
    }
}

#[test]
fn a_prime_is_0_or_1_and_a_step_has_at_most_3_sources() {
    for byte in 2..=u8::MAX {
        all_give(MALFORMED, |lent| lent.lists[0][DESTINATION + 1] = byte);
        all_give(MALFORMED, |lent| lent.lists[0][SOURCE + 1] = byte);
    }
    for count in 4..=u8::MAX {
        all_give(MALFORMED, |lent| lent.lists[0][1] = count);
    }
}

#[test]
fn frames_that_are_cut_off_are_malformed() {
    let whole = lent().frames;
    let mut ends = vec![0];
    while let Some(size) = whole.get(*ends.last().unwrap()..).filter(|rest| !rest.is_empty()) {
        ends.push(ends.last().unwrap() + 2 + usize::from(u16::from_be_bytes([size[0], size[1]])));
    }
    for size in 0..whole.len() {
        let expected = if ends.contains(&size) { NOT_THERE } else { MALFORMED };
        all_give(expected, |lent| lent.frames.truncate(size));
    }
}

#[test]
fn garbage_is_malformed() {
    for byte in [0, 3, 4, u8::MAX] {
        all_give(MALFORMED, |lent| lent.frames = vec![byte; 64]);
        all_give(MALFORMED, |lent| lent.frames.extend([0, 1, byte]));
    }
}

/// 1 and 9 of frames, then of the plan, then of lists; then the pool's 2.
#[test]
fn what_is_read_first_decides() {
    let spoil_list = |lent: &mut Lent| {
        lent.lists[0].pop();
    };
    let all_on = |input: &Input, expected: u8, change: &dyn Fn(&mut Lent)| {
        for stage in STAGES {
            let mut lent = lent_on(input);
            change(&mut lent);
            assert_eq!(number(stage, &lent), expected, "{:?}", stage);
        }
    };
    let mut large = input();
    large.pool.nodes = vec![large.pool.nodes[0].clone(); MAX_NODES + 1];
    all_on(&large, FULL, &spoil_list);
    all_on(&large, FULL, &|lent| lent.plan.clear());
    let mut full = input();
    full.plan[2..4].fill(u8::MAX);
    all_on(&full, FULL, &spoil_list);
    let mut childless = input();
    childless.pool.nodes[2].children.pop();
    all_on(&childless, CHILD_COUNT, &|_| {});
    all_on(&childless, MALFORMED, &spoil_list);
    all_on(&childless, FULL, &|lent| lent.plan[2..4].fill(u8::MAX));
}

/// The pass's own x dimension is any number; 0 is none.
#[test]
fn an_x_dimension_of_0_is_no_dimension() {
    assert_eq!(number(Stage::Dimension(0), &lent()), NO_DIMENSION);
    let mut lent = lent();
    assert_eq!(Stage::Dimension(u16::MAX).call(&mut lent), 0);
    assert_eq!(lent.lists[1][DESTINATION + 4..][..2], [u8::MAX; 2]);
}

#[test]
fn the_stored_vectors_are_answered() {
    let path = concat!(env!("CARGO_MANIFEST_DIR"), "/../../vectors/plans.txt");
    let port = Port::default();
    answers_the_stored_vectors(path, |question| port.say(question));
}

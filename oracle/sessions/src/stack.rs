//! How much stack an exported function needs: what it touches is seen by painting it beforehand.

use crate::planned::{Lent, Sent, Stage};
use crate::record::{framed, pool_frames};
use enonkasse_sys::{
    self as library, CONSTRAINT_NUMBERS, CONSTRAINT_TOTALS, CONTEXT_SIZE, LIST_ROOM,
    MAX_FRAMES_SIZE, NO_ORIGIN, REFERENCE_SIZE, SET_BIT_WORDS, SET_WORDS, STEP_SIZE, VALUE_PARTS,
};
use judge::case::{cm, exp, mul, neg, number, plain_pool, Tree};
use judge::kinds::{Kind, Step};
use judge::pool::{Pool, MAX_EXPRESSIONS, MAX_NODES};
use judge::script::Request;
use plans::input::{Draft, Input};
use plans::lists::Segment;
use plans::plan::Plan;
use plans::written::{pu, ratio, small, with_columns};
use std::{ptr, thread};

/// Of the thread that is painted, and how much of it.
const STACK: usize = 64 << 20;
const PAINTED: usize = 48 << 20;

/// Nearer to where painting begins stands what paints.
const UNPAINTED: usize = 1024;

/// What a thread needs beside the call.
const OF_THREAD: usize = 16 << 10;

const PAINT: u64 = 0x5a17_c0de_5a17_c0de;

/// Nodes that a pool has room for twice, with a constraint's own.
const COPIED: usize = 2_040;

/// One more than the evaluator has room for: its list is looked at once more.
const CELLS: u16 = 16_385;

/// Visits enough to reach the bottom of every pool here.
const VISITS: u64 = 200_000;

/// The trees that go deepest, by name.
fn pools() -> Vec<(&'static str, Pool)> {
    let nested = |leaf: fn() -> Tree, left: bool| {
        let step = |tree, _| if left { mul(tree, leaf()) } else { mul(leaf(), tree) };
        vec![(0..(MAX_NODES - 1) / 2).fold(leaf(), step)]
    };
    let chain = |leaf, count| (0..count).fold(leaf, |tree, _| neg(tree));
    // As many negs on the way as there are nodes for.
    let links = MAX_NODES / MAX_EXPRESSIONS - 1;
    let reading = |e: usize| if e == 0 { cm(0) } else { exp(e as u16 - 1) };
    let trees = vec![
        ("one leaf", vec![cm(0)]),
        ("4,095 neg", vec![chain(cm(0), MAX_NODES - 1)]),
        // There is room for a copy of it in a constraint.
        ("2,040 neg", vec![chain(cm(0), COPIED)]),
        ("2,047 mul, left, cm", nested(|| cm(0), true)),
        ("2,047 mul, right, cm", nested(|| cm(0), false)),
        ("2,047 mul, left, number", nested(|| number(5), true)),
        ("2,047 mul, right, number", nested(|| number(5), false)),
        ("512 expressions", (0..MAX_EXPRESSIONS).map(|e| chain(reading(e), links)).collect()),
        (
            "512 expressions, mul",
            (0..MAX_EXPRESSIONS).map(|e| mul(chain(reading(e), links - 2), number(5))).collect(),
        ),
    ];
    trees.into_iter().map(|(name, trees)| (name, plain_pool(&trees))).collect()
}

/// A plan in which the last expression is everything.
fn lent_to_walks(pool: &Pool) -> Lent {
    let last = pool.expressions().len() as u16 - 1;
    let plan = Plan {
        c_exp: last,
        q_deg: 1,
        pu: vec![pu(last, last, last, last)],
        pe: vec![ratio(last, last)],
        q2exp: vec![last],
        ..small()
    };
    let mut segment = Segment::default();
    for line in ["first tmp:0 = add cm:0 cm:0", "i tmp:0 = copy x:0", "last tmp:1 = copy tmp:0"] {
        assert_eq!(segment.take_line(line), Ok(true));
    }
    Sent::new(&Input::new(Draft::of(pool), &with_columns(1, plan)), &segment).lent
}

type Call<'a> = Box<dyn Fn() -> u8 + Send + Sync + 'a>;

/// Each exported function on a pool, by name.
fn calls(pool: &Pool) -> Vec<(&'static str, Call<'_>)> {
    let lent = lent_to_walks(pool);
    let stages =
        [Stage::Fix(0), Stage::Fix(1), Stage::Query, Stage::Dimension(3), Stage::DimensionFirst];
    let mut calls: Vec<(&str, Call)> = Vec::new();
    for stage in stages {
        let lent = lent.clone();
        calls.push((stage.name(), Box::new(move || stage.call(&mut lent.clone()))));
    }
    let map = move || {
        let (mut out, mut size) = (vec![0; 1 << 17], [0]);
        library::map(&lent.frames, &lent.plan, &mut out, &mut size)
    };
    calls.push(("map", Box::new(map)));
    let frames = pool_frames(pool);
    let last = pool.expressions().len() as u64 - 1;
    for more in [0, 4] {
        let frames = frames.clone();
        let search = move || {
            let (mut chosen, mut found) = ([0; SET_WORDS], [0; 2]);
            let (identities, bits) = ([last, last], 3 + more);
            library::search(&frames, &identities, 3, bits, VISITS, &mut chosen, &mut found)
        };
        calls.push(("search", Box::new(search)));
    }
    calls.push(("run", Box::new(run(pool))));
    calls.push(("evaluate", Box::new(evaluate(frames.clone()))));
    calls.push(("constraint_pool", Box::new(constraint_pool(frames.clone(), last))));
    for more in [0, 4] {
        let frames = frames.clone();
        calls.push(("constraint", Box::new(move || constraint(&frames, last, more))));
    }
    calls
}

/// The last expression, at both rows.
fn run(pool: &Pool) -> impl Fn() -> u8 {
    let expression = pool.expressions().len() as u16 - 1;
    let request = |prime| Request { expression, prime, muladd: true, asked: None }.frame();
    let mut frames = pool_frames(pool);
    frames.extend(framed([request(false), request(true)]));
    move || library::run(&frames, &mut vec![0; STEP_SIZE * LIST_ROOM], &mut [0; 2])
}

/// As many temporaries as cells, each a copy of cm 0.
fn evaluate(frames: Vec<u8>) -> impl Fn() -> u8 {
    let list: Vec<u8> = (0..CELLS).flat_map(copied).collect();
    let mut values = vec![0; VALUE_PARTS + 2];
    values[0] = 2;
    move || library::evaluate(&frames, &list, 7, &values, &mut vec![0; 1 << 18], &mut [0])
}

/// A step that copies cm 0 to a temporary: step byte, count, origin, then the references.
fn copied(temporary: u16) -> Vec<u8> {
    let mut step = vec![Step::COPY.byte(), 1];
    step.extend((NO_ORIGIN as u16).to_be_bytes());
    for (kind, id) in [(Kind::TMP, temporary), (Kind::CM, 0)] {
        step.extend([kind.byte(), 0]);
        step.extend(id.to_be_bytes());
        step.resize(step.len() + REFERENCE_SIZE - 4, 0);
    }
    step.resize(STEP_SIZE, 0);
    step
}

/// With the last expression as its identity and its member.
fn constraint_pool(frames: Vec<u8>, last: u64) -> impl Fn() -> u8 {
    let mut chosen = [0; SET_WORDS];
    chosen[last as usize / 64] = 1 << (last % 64);
    chosen[SET_BIT_WORDS] = 1;
    move || {
        let (mut out, mut numbers) = (vec![0; MAX_FRAMES_SIZE], [0; CONSTRAINT_NUMBERS]);
        let identities = [last];
        library::constraint_pool(
            &frames,
            &identities,
            &chosen,
            4,
            1,
            0,
            1,
            1,
            &mut out,
            &mut numbers,
        )
    }
}

/// On fresh contexts, with the last expression as its identity.
fn constraint(frames: &[u8], last: u64, more: u64) -> u8 {
    let mut context = vec![0; CONTEXT_SIZE];
    library::fresh(&mut context);
    let room = vec![0; STEP_SIZE * LIST_ROOM];
    let lists = || [room.clone(), room.clone(), room.clone(), room.clone()];
    let ([list, first, i, end], [list_2ns, first_2ns, i_2ns, end_2ns]) =
        (&mut lists(), &mut lists());
    library::constraint(
        frames,
        &[last],
        4,
        3,
        3 + more,
        VISITS,
        1,
        0,
        1,
        &mut context.clone(),
        list,
        first,
        i,
        end,
        &mut context,
        list_2ns,
        first_2ns,
        i_2ns,
        end_2ns,
        &mut vec![0; MAX_FRAMES_SIZE],
        &mut [0; SET_WORDS],
        &mut [0; 2],
        &mut [0; CONSTRAINT_TOTALS],
    )
}

/// The stack that a call touches, in bytes, and its answer.
fn touched(call: &(dyn Fn() -> u8 + Send + Sync)) -> (usize, u8) {
    on_stack(STACK, move || {
        let here = 0u8;
        let top = ptr::addr_of!(here) as usize & !7;
        paint(top);
        let answer = call();
        (top - lowest_touched(top), answer)
    })
}

fn on_stack<T: Send>(size: usize, work: impl FnOnce() -> T + Send) -> T {
    thread::scope(|scope| {
        let thread = thread::Builder::new().stack_size(size).spawn_scoped(scope, work);
        thread.expect("a thread").join().expect("no panic")
    })
}

/// Below `top` is the thread's own stack, of which nothing is in use.
#[inline(never)]
fn paint(top: usize) {
    for place in (top - PAINTED..top - UNPAINTED).step_by(8) {
        // Safety: mapped for this thread, as it has a larger stack, and below all that it uses.
        unsafe { ptr::write_volatile(place as *mut u64, PAINT) }
    }
}

#[inline(never)]
fn lowest_touched(top: usize) -> usize {
    let is_painted = |place: &usize| {
        // Safety: as above.
        unsafe { ptr::read_volatile(*place as *const u64) == PAINT }
    };
    let mut places = (top - PAINTED..top - UNPAINTED).step_by(8);
    places.find(|place| !is_painted(place)).unwrap_or(top - UNPAINTED)
}

/// The most that each function touches on each pool, by function, then pool; with the answers.
fn needs() -> Vec<(&'static str, &'static str, usize, u8)> {
    let mut needs: Vec<(&str, &str, usize, u8)> = Vec::new();
    for (pool_name, pool) in &pools() {
        for (name, call) in calls(pool) {
            let (bytes, answer) = touched(&*call);
            // It runs on a stack of that size.
            assert_eq!(on_stack(bytes + OF_THREAD, &*call), answer);
            needs.push((name, pool_name, bytes, answer));
        }
    }
    needs.sort_by_key(|&(name, ..)| name);
    needs
}

/// Prints what each function needs on each pool.
pub fn print() {
    println!("| {:<16} | {:<26} | {:>9} | {:>6} |", "Function", "Pool", "KiB", "Answer");
    println!("|---|---|---|---|");
    for (name, pool, bytes, answer) in needs() {
        println!("| {:<16} | {:<26} | {:>9} | {:>6} |", name, pool, (bytes + 1023) / 1024, answer);
    }
}

#[cfg(test)]
mod tests {
    use super::*;

    /// What the deepest pools may need beyond what a pool of one leaf needs.
    const MOST: usize = 1 << 20;

    #[test]
    fn the_deepest_pools_need_at_most_a_mebibyte_more_than_one_leaf() {
        let needs = needs();
        for &(name, pool, bytes, _) in &needs {
            let of_a_leaf = needs.iter().filter(|need| need.0 == name && need.1 == "one leaf");
            let tables = of_a_leaf.map(|need| need.2).max().expect("a pool of one leaf");
            assert!(bytes <= tables + MOST, "{} on {}: {} and {}", name, pool, tables, bytes);
        }
    }
}

//! Document 01's examples.

use enonkasse::search::search;
use enonkasse::{
    Context, ExpressionId, Flags, Found, Frames, Literal, NodeKind, Pool, Refusal, Request,
};

/// The steps of one request for expression 0, and the temporary counter.
fn run(pool: &Pool, fused: bool) -> (Vec<String>, usize) {
    let request = Request { muladd: fused, ..Request::of(ExpressionId(0)) };
    let frames = pool.frames();
    let mut context = Context::new();
    context.serve(&frames.with_requests(&[request])).unwrap();
    let steps = context.list().steps(&frames).unwrap();
    (steps.iter().map(ToString::to_string).collect(), context.temporary_count())
}

fn lines(lines: &[&str], counter: usize) -> (Vec<String>, usize) {
    (lines.iter().map(ToString::to_string).collect(), counter)
}

/// cm0·cm1 + const0'
fn sum() -> Pool {
    let mut pool = Pool::new();
    let (a, b) = (pool.cm(0), pool.cm(1));
    let product = pool.mul(a, b);
    let c = pool.leaf_next(NodeKind::Const, 0);
    let root = pool.add(product, c);
    pool.expression(root, Flags::NONE);
    pool
}

#[test]
fn frames_are_those_of_the_document() {
    let mut frames = Frames::new();
    for frame in [
        &[0x01, 0x10, 0, 0, 0, 0][..],
        &[0x01, 0x10, 0, 0, 1, 0],
        &[0x01, 0x03, 0, 0, 0, 2, 0, 0, 0, 1],
        &[0x01, 0x11, 1, 0, 0, 0],
        &[0x01, 0x01, 0, 0, 0, 2, 0, 2, 0, 3],
        &[0x02, 0, 4, 0],
        &[0x03, 0, 0, 0, 1],
    ] {
        frames.push(frame);
    }
    let request = Request::of(ExpressionId(0)).fused();
    assert_eq!(sum().frames().with_requests(&[request]), frames);
}

#[test]
fn the_two_runs() {
    assert_eq!(run(&sum(), true), lines(&["exp:0 = muladd cm:0 cm:1 const:0'"], 0));
    let plain = ["tmp:0 = mul cm:0 cm:1", "exp:0 = add tmp:0 const:0'"];
    assert_eq!(run(&sum(), false), lines(&plain, 1));
}

#[test]
fn the_whole_run_is_one_call() {
    let pool = sum();
    let asked = |request: Request| enonkasse::run::run(&pool.frames().with_requests(&[request]));
    let done = asked(Request::of(ExpressionId(0)).fused()).unwrap();
    let steps = done.first.steps(&pool.frames()).unwrap();
    let steps = steps.iter().map(ToString::to_string).collect();
    assert_eq!((steps, done.counter), lines(&["exp:0 = muladd cm:0 cm:1 const:0'"], 0));
    assert_eq!(asked(Request::of(ExpressionId(0)).primed()), Err(Refusal::DoublePrime));
    assert_eq!(asked(Request::of(ExpressionId(1))), Err(Refusal::NotThere));
}

#[test]
fn of_two_products_the_first_is_fused() {
    let mut pool = Pool::new();
    let leaves = [0, 1, 2, 3].map(|id| pool.cm(id));
    let (first, second) = (pool.mul(leaves[0], leaves[1]), pool.mul(leaves[2], leaves[3]));
    let root = pool.add(first, second);
    pool.expression(root, Flags::NONE);
    let steps = ["tmp:0 = mul cm:2 cm:3", "exp:0 = muladd cm:0 cm:1 tmp:0"];
    assert_eq!(run(&pool, true), lines(&steps, 1));
}

#[test]
fn neg_is_a_sub_from_0_and_a_leaf_a_copy() {
    let mut pool = Pool::new();
    let leaf = pool.cm(0);
    let root = pool.neg(leaf);
    pool.expression(root, Flags::NONE);
    assert_eq!(run(&pool, false), lines(&["exp:0 = sub number:0 cm:0"], 0));
    let mut bare = Pool::new();
    let root = bare.cm(0);
    bare.expression(root, Flags::NONE);
    assert_eq!(run(&bare, false), lines(&["exp:0 = copy cm:0"], 0));
}

#[test]
fn literals_are_shown() {
    let mut pool = Pool::new();
    let leaf = pool.number(Literal::plus(u64::MAX));
    let sum = pool.addc(leaf, -7);
    let root = pool.mulc(sum, 3);
    pool.expression(root, Flags::NONE);
    let steps = ["tmp:0 = add number:18446744073709551615 number:-7", "exp:0 = mul tmp:0 number:3"];
    assert_eq!(run(&pool, false), lines(&steps, 1));
}

#[test]
fn a_build_leaves_kept_blocks_out() {
    let mut pool = Pool::new();
    let leaf = pool.cm(0);
    let kept = pool.expression(leaf, Flags { keep: true, ..Flags::NONE });
    let other = pool.constant(0);
    let plain = pool.expression(other, Flags::NONE);
    let frames = pool.frames();
    let requests = [Request::of(kept), Request::of(kept).primed(), Request::of(plain)];
    let mut context = Context::new();
    context.serve(&frames.with_requests(&requests)).unwrap();
    assert_eq!((context.block_count(), context.step_count()), (3, 3));
    let segment = context.build(&frames).unwrap();
    let shown = |list: &enonkasse::List| -> Vec<String> {
        list.steps(&frames).unwrap().iter().map(ToString::to_string).collect()
    };
    let blocks = ["exp:0 = copy cm:0", "exp:0' = copy cm:0'", "exp:1 = copy const:0"];
    assert_eq!(shown(&segment.first), blocks);
    assert_eq!(shown(&segment.i), blocks[1..]);
    assert_eq!(shown(&segment.last), blocks[1..]);
    assert_eq!((context.block_count(), context.step_count()), (0, 0));
    let marks = |e| [context.is_marked(e, false), context.is_marked(e, true)];
    assert_eq!((marks(kept), marks(plain)), ([true; 2], [true; 2]));
    context.fresh();
    assert!(!context.is_marked(kept, false));
}

/// What other step generators do to a context: mark intermediates, and clear marks after a build.
#[test]
fn marks_are_set_and_cleared() {
    let (frames, e0, e1) = (products(), ExpressionId(0), ExpressionId(1));
    let asked = frames.with_requests(&[Request::of(e1)]);
    let mut context = Context::new();
    context.mark_both_ways(e0).unwrap();
    assert!(context.is_marked(e0, false) && context.is_marked(e0, true));
    context.serve(&asked).unwrap();
    let steps = context.list().steps(&frames).unwrap();
    assert_eq!(steps.len(), 1);
    assert_eq!(steps[0].to_string(), "exp:1 = mul exp:0 cm:2");
    let before = context.clone();
    assert_eq!(context.clear_marks(), Err(Refusal::Malformed));
    assert_eq!(context.mark_both_ways(ExpressionId(512)), Err(Refusal::NotThere));
    assert_eq!(context, before);
    context.build(&frames).unwrap();
    context.serve(&asked).unwrap();
    assert_eq!(context.step_count(), 0);
    context.clear_marks().unwrap();
    context.serve(&asked).unwrap();
    assert_eq!(context.step_count(), 2);
    context.fresh();
    context.mark_both_ways(ExpressionId(2)).unwrap();
    assert_eq!(context.serve(&asked), Err(Refusal::Malformed));
}

/// e0 = cm0·cm1, e1 = exp0·cm2
fn products() -> Frames {
    let mut pool = Pool::new();
    let (a, b) = (pool.cm(0), pool.cm(1));
    let root = pool.mul(a, b);
    let first = pool.expression(root, Flags::NONE);
    let (a, b) = (pool.exp(first), pool.cm(2));
    let root = pool.mul(a, b);
    pool.expression(root, Flags::NONE);
    pool.frames()
}

#[test]
fn searches() {
    let found = |visits| Ok(Found { set: vec![ExpressionId(0)], q: 1, visits });
    let identity = [ExpressionId(1)];
    assert_eq!(search(&products(), &identity, 3, 3, 100), found(10));
    assert_eq!(search(&products(), &identity, 3, 4, 12), found(12));
    assert_eq!(search(&products(), &identity, 3, 4, 11), Err(Refusal::Visits));
}

#[test]
fn searches_of_leaves() {
    let of = |leaf: fn(&mut Pool) -> enonkasse::NodeId| {
        let mut pool = Pool::new();
        let root = leaf(&mut pool);
        let identity = pool.expression(root, Flags::NONE);
        search(&pool.frames(), &[identity], 3, 3, 100)
    };
    assert_eq!(of(|pool| pool.cm(0)).map(|found| found.q), Ok(0));
    assert_eq!(of(|pool| pool.number(5)), Err(Refusal::NoQuotient));
}

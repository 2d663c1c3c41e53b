//! The refusals of pools, requests, searches and evaluations, each with its number; a refused context
//! is as it was. Those of plans are in plans.rs.

use enonkasse::evaluate::evaluate;
use enonkasse::search::search;
use enonkasse::{
    Context, ExpressionId, Flags, Frames, List, Node, NodeId, NodeKind, Pool, Reference,
    ReferenceKind, Refusal, Request, Step, StepKind, Values,
};

const E0: ExpressionId = ExpressionId(0);

/// A pool of one expression, the tree that is added last.
fn pool(tree: impl FnOnce(&mut Pool) -> NodeId) -> Pool {
    let mut pool = Pool::new();
    let root = tree(&mut pool);
    pool.expression(root, Flags::NONE);
    pool
}

/// The refusal's number; a refused context must be as it was.
fn served_by(context: &mut Context, frames: &Frames) -> Option<u8> {
    let before = context.clone();
    let refusal = context.serve(frames).err();
    assert!(refusal.is_none() || *context == before);
    refusal.map(Refusal::number)
}

fn served(pool: &Pool, request: Request) -> Option<u8> {
    served_by(&mut Context::new(), &pool.frames().with_requests(&[request]))
}

#[test]
fn malformed_1() {
    let mut frames = Frames::new();
    frames.push(&[1, 0xff, 0, 0, 0, 0]);
    assert_eq!(served_by(&mut Context::new(), &frames), Some(1));
    let unused_id = pool(|pool| pool.leaf(NodeKind::X, 1));
    assert_eq!(served(&unused_id, Request::of(E0)), Some(1));
}

#[test]
fn child_count_2() {
    let childless = pool(|pool| pool.node(Node::operation(NodeKind::Add, &[])));
    assert_eq!(served(&childless, Request::of(E0)), Some(2));
}

#[test]
fn not_there_3() {
    let twice = pool(|pool| {
        let a = pool.cm(0);
        pool.mul(a, a)
    });
    let later = pool(|pool| pool.neg(NodeId(0)));
    let lost_root = pool(|_| NodeId(7));
    let lost_expression = pool(|pool| pool.exp(ExpressionId(1)));
    for pool in [twice, later, lost_root, lost_expression] {
        assert_eq!(served(&pool, Request::of(E0)), Some(3));
    }
    assert_eq!(served(&pool(|pool| pool.cm(0)), Request::of(ExpressionId(1))), Some(3));
}

#[test]
fn cycle_4() {
    let cycle = pool(|pool| pool.exp(E0));
    assert_eq!(served(&cycle, Request::of(E0)), Some(4));
}

#[test]
fn double_prime_5() {
    let next = pool(|pool| pool.leaf_next(NodeKind::Cm, 0));
    assert_eq!(served(&next, Request::of(E0)), None);
    assert_eq!(served(&next, Request::of(E0).primed()), Some(5));
    // Also behind a request that could be served, and where a context has something in it.
    let requests = [Request::of(E0), Request::of(E0).primed()];
    let frames = next.frames().with_requests(&requests);
    assert_eq!(served_by(&mut Context::new(), &frames), Some(5));
    let mut context = Context::new();
    context.serve(&next.frames().with_requests(&requests[..1])).unwrap();
    assert_eq!(served_by(&mut context, &next.frames().with_requests(&requests[1..])), Some(5));
}

#[test]
fn results_7_and_8() {
    let pool = pool(|pool| pool.cm(0));
    let (plain, f) = (pool.frames(), ReferenceKind::F);
    let mut context = Context::new();
    let before = context.clone();
    let primed = plain.with_requests(&[Request::of(E0).primed()]);
    assert_eq!(context.serve_into(&primed, f, 0), Err(Refusal::NoPrimedMark));
    let asked = plain.with_requests(&[Request::of(E0)]);
    assert_eq!(context.serve_into(&asked, ReferenceKind::Number, 0), Err(Refusal::Malformed));
    assert_eq!(context, before);
    context.serve_into(&asked, f, 0).unwrap();
    let steps = context.list().steps(&plain).unwrap();
    let shown: Vec<_> = steps.iter().map(ToString::to_string).collect();
    assert_eq!(shown, ["exp:0 = copy cm:0", "f:0 = copy exp:0"]);
    context.build(&plain).unwrap();
    let built = context.clone();
    assert_eq!(context.serve_into(&asked, f, 0), Err(Refusal::NoBlock));
    assert_eq!(context, built);
}

#[test]
fn full_9() {
    let pool = pool(|pool| {
        let (a, b, c) = (pool.cm(0), pool.cm(1), pool.cm(2));
        let product = pool.mul(a, b);
        pool.mul(product, c)
    });
    let frames = pool.frames().with_requests(&[Request::of(E0)]);
    assert_eq!(served_by(&mut Context::with_room(1), &frames), Some(9));
    assert_eq!(served_by(&mut Context::with_room(2), &frames), None);
    let mut large = Pool::new();
    for _ in 0..=4096 {
        large.cm(0);
    }
    assert_eq!(served_by(&mut Context::new(), &large.frames()), Some(9));
}

#[test]
fn evaluations_1_and_10() {
    let pool = pool(|pool| {
        let (a, b) = (pool.cm(0), pool.number(7));
        pool.sub(b, a)
    });
    let frames = pool.frames();
    let mut context = Context::new();
    context.serve(&frames.with_requests(&[Request::of(E0)])).unwrap();
    let values = Values { cm: vec![[10, 11]], ..Values::default() };
    let list = context.list();
    let cells = evaluate(&frames, &list, 65_537, &values).unwrap();
    assert_eq!((cells.len(), cells[0].kind, cells[0].value), (1, ReferenceKind::Exp, 65_534));
    assert_eq!(evaluate(&frames, &list, 1, &values), Err(Refusal::Malformed));
    assert_eq!(evaluate(&frames, &list, 2, &Values::default()), Err(Refusal::NoRule));
    let (tmp, x) = (Reference::new(ReferenceKind::Tmp, 0), Reference::new(ReferenceKind::X, 0));
    let copy = List::of(&[Step::new(StepKind::Copy, tmp, &[x])]);
    let values = Values { xs: Some([1, 2, 3]), ..Values::default() };
    assert_eq!(evaluate(&frames, &copy, 65_537, &values).unwrap()[0].value, 3);
    assert_eq!(evaluate(&frames, &copy, 65_537, &Values::default()), Err(Refusal::NoRule));
}

#[test]
fn searches_3_6_and_13_to_17() {
    let number = |pool: Pool, identities: &[ExpressionId], bits: [u8; 2], limit: u64| {
        search(&pool.frames(), identities, bits[0], bits[1], limit).err().map(Refusal::number)
    };
    let of = |pool| number(pool, &[E0], [3, 3], 1000);
    let cm = || pool(|pool| pool.cm(0));
    assert_eq!(of(cm()), None);
    assert_eq!(of(pool(|pool| pool.leaf(NodeKind::Q, 0))), Some(6));
    assert_eq!(of(pool(|pool| pool.leaf(NodeKind::Eval, 0))), Some(6));
    let cube = pool(|pool| {
        let (a, b, c) = (pool.cm(0), pool.cm(1), pool.cm(2));
        let product = pool.mul(a, b);
        pool.mul(product, c)
    });
    assert_eq!(of(cube), Some(13));
    assert_eq!(of(pool(|pool| pool.number(-5))), Some(14));
    assert_eq!(number(cm(), &[E0], [3, 3], 0), Some(15));
    assert_eq!(number(cm(), &[E0], [3, 2], 1000), Some(16));
    assert_eq!(number(cm(), &[E0], [25, 25], 1000), Some(16));
    assert_eq!(number(cm(), &[], [3, 3], 1000), Some(17));
    assert_eq!(number(cm(), &[ExpressionId(1)], [3, 3], 1000), Some(3));
}

/// The deepest pools are served, built, evaluated and searched on the stack of a thread.
#[test]
fn the_deepest_pool_has_stack_enough() {
    let pool = pool(|pool| {
        let leaf = pool.cm(0);
        (1..4096).fold(leaf, |node, _| pool.neg(node))
    });
    let frames = pool.frames();
    let mut context = Context::new();
    context.serve(&frames.with_requests(&[Request::of(E0)])).unwrap();
    assert_eq!(context.step_count(), 4095);
    let values = Values { cm: vec![[1, 2]], ..Values::default() };
    let cells = evaluate(&frames, &context.list(), 7, &values).unwrap();
    assert_eq!(cells.last().unwrap().value, 6);
    assert_eq!(context.build(&frames).unwrap().first.len(), 4095);
    assert_eq!(search(&frames, &[E0], 3, 3, 10_000).map(|found| found.q), Ok(0));
}

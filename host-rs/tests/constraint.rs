//! The constraint polynomial, piece by piece: what document 01's rules make of small pools.

use enonkasse::constraint::{constraint, extend, step3, step42ns, Columns, Extended, Question};
use enonkasse::search::search;
use enonkasse::{Context, ExpressionId, Flags, Found, Pool, Refusal, Request, Segment};

const VC: u16 = 4;
const COLUMNS: Columns = Columns { n_cm1: 3, n_cm2: 0, commitments: 3 };

/// e0 = cm0·cm1, e1 = exp0·cm2.
fn two() -> Pool {
    let mut pool = Pool::new();
    let (a, b) = (pool.cm(0), pool.cm(1));
    let product = pool.mul(a, b);
    let first = pool.expression(product, Flags::NONE);
    let (read, c) = (pool.exp(first), pool.cm(2));
    let root = pool.mul(read, c);
    pool.expression(root, Flags::NONE);
    pool
}

fn found(pool: &Pool) -> Found {
    search(&pool.frames(), &[ExpressionId(1)], 10, 10, 100).unwrap()
}

fn extended(pool: &Pool) -> Extended {
    extend(&pool.frames(), &[ExpressionId(1)], &found(pool), VC, COLUMNS).unwrap()
}

fn steps(segment: &Segment, extended: &Extended) -> Vec<String> {
    let steps = segment.first.steps(&extended.frames).unwrap();
    steps.iter().map(ToString::to_string).collect()
}

#[test]
fn the_member_gets_the_next_column_and_the_quotient_the_one_behind() {
    let extended = extended(&two());
    assert_eq!(extended.expression, ExpressionId(2));
    assert_eq!(extended.intermediates, [(ExpressionId(0), 3)]);
    assert_eq!((extended.n_cm3, extended.qs, extended.commitments), (1, vec![4], 5));
}

#[test]
fn step3_makes_the_member_and_step42ns_the_constraint_with_its_closing_product() {
    let extended = extended(&two());
    let (mut first, mut second) = (Context::new(), Context::new());
    let made = step3(&extended, &mut first).unwrap();
    assert_eq!(steps(&made, &extended), ["exp:0 = mul cm:0 cm:1"]);
    let made = step42ns(&extended, &mut second).unwrap();
    assert_eq!(
        steps(&made, &extended),
        [
            "exp:1 = mul exp:0 cm:2",
            "tmp:0 = mul challenge:4 exp:1",
            "tmp:1 = mul cm:0 cm:1",
            "tmp:2 = sub tmp:1 cm:3",
            "exp:2 = add tmp:0 tmp:2",
            "q:0 = mul exp:2 Zi:0",
        ]
    );
    assert_eq!(second.block_count(), 0);
}

#[test]
fn a_context_of_another_pool_is_malformed_and_stays_as_it_is() {
    let extended = extended(&two());
    let mut context = Context::new();
    context.mark_both_ways(ExpressionId(3)).unwrap();
    let before = context.clone();
    assert_eq!(step42ns(&extended, &mut context), Err(Refusal::Malformed));
    assert_eq!(step3(&extended, &mut context), Err(Refusal::Malformed));
    assert_eq!(context, before);
}

#[test]
fn no_block_is_closed_where_the_constraint_is_marked() {
    let extended = extended(&two());
    let mut context = Context::new();
    context.mark_both_ways(extended.expression).unwrap();
    let before = context.clone();
    assert_eq!(step42ns(&extended, &mut context), Err(Refusal::NoBlock));
    assert_eq!(context, before);
}

#[test]
fn what_does_not_fit_together_is_refused() {
    let pool = two();
    let (frames, found) = (pool.frames(), found(&pool));
    let asked = |identities: &[u16], found: &Found, columns| {
        let identities: Vec<_> = identities.iter().map(|&e| ExpressionId(e)).collect();
        extend(&frames, &identities, found, VC, columns).err()
    };
    let other = Found { set: vec![ExpressionId(2)], ..found.clone() };
    let fewer = Columns { commitments: 2, ..COLUMNS };
    let most = Columns { commitments: 65_534, ..COLUMNS };
    let more = Columns { commitments: 65_535, ..COLUMNS };
    assert_eq!(asked(&[1], &found, COLUMNS), None);
    assert_eq!(asked(&[], &found, COLUMNS), Some(Refusal::NoIdentity));
    assert_eq!(asked(&[2], &found, COLUMNS), Some(Refusal::NotThere));
    assert_eq!(asked(&[1], &other, COLUMNS), Some(Refusal::Malformed));
    assert_eq!(asked(&[1], &found, fewer), Some(Refusal::Counts));
    assert_eq!(asked(&[1], &found, most), None);
    assert_eq!(asked(&[1], &found, more), Some(Refusal::Full));
}

/// The search may be accepted, and a member be refused all the same.
#[test]
fn generation_refuses_after_an_accepted_search() {
    let mut pool = Pool::new();
    let (a, b) = (pool.leaf_next(enonkasse::NodeKind::Cm, 0), pool.cm(1));
    let product = pool.mul(a, b);
    pool.expression(product, Flags::NONE);
    let (read, c) = (pool.leaf_next(enonkasse::NodeKind::Exp, 0), pool.cm(2));
    let root = pool.mul(read, c);
    pool.expression(root, Flags::NONE);
    let (read, d) = (pool.exp(ExpressionId(1)), pool.cm(3));
    let root = pool.mul(read, d);
    pool.expression(root, Flags::NONE);
    let identities = [ExpressionId(2)];
    let found = search(&pool.frames(), &identities, 10, 10, 1000).unwrap();
    assert_eq!(found.set, [ExpressionId(0), ExpressionId(1)]);
    let extended = extend(&pool.frames(), &identities, &found, VC, COLUMNS).unwrap();
    let mut context = Context::new();
    context.serve(&pool.frames().with_requests(&[Request::of(ExpressionId(0))])).unwrap();
    let before = context.clone();
    assert_eq!(step3(&extended, &mut context), Err(Refusal::DoublePrime));
    assert_eq!(context, before);
}

fn question(identities: &[u16]) -> Question {
    Question {
        identities: identities.iter().map(|&e| ExpressionId(e)).collect(),
        vc: VC,
        n_bits: 10,
        n_bits_ext: 10,
        limit: 1000,
        columns: COLUMNS,
    }
}

#[test]
fn the_one_call_is_the_pieces_in_order() {
    let pool = two();
    let (mut first, mut second) = (Context::new(), Context::new());
    let made = constraint(&pool.frames(), &question(&[1]), &mut first, &mut second).unwrap();
    let extended = extended(&pool);
    let (mut one, mut two) = (Context::new(), Context::new());
    assert_eq!(made.found, found(&pool));
    assert_eq!(made.extended, extended);
    assert_eq!(made.step3, step3(&extended, &mut one).unwrap());
    assert_eq!(made.step42ns, step42ns(&extended, &mut two).unwrap());
    let state = |context: &Context| {
        let marks = |e| (context.is_marked(e, false), context.is_marked(e, true));
        ((0..4).map(|e| marks(ExpressionId(e))).collect::<Vec<_>>(), context.temporary_count())
    };
    assert_eq!((state(&first), state(&second)), (state(&one), state(&two)));
}

#[test]
fn a_refused_call_leaves_both_contexts() {
    let pool = two();
    let (mut first, mut second) = (Context::new(), Context::new());
    let served = pool.frames().with_requests(&[Request::of(ExpressionId(0))]);
    first.serve(&served).unwrap();
    let mut marked = Context::new();
    marked.mark_both_ways(ExpressionId(2)).unwrap();
    let mut tight = Context::with_room(5);
    let before = (first.clone(), second.clone(), marked.clone(), tight.clone());
    let mut asked = |question: &Question, second: &mut Context| {
        constraint(&pool.frames(), question, &mut first, second).err()
    };
    assert_eq!(asked(&question(&[]), &mut second), Some(Refusal::NoIdentity));
    assert_eq!(asked(&question(&[2]), &mut second), Some(Refusal::NotThere));
    let limited = Question { limit: 3, ..question(&[1]) };
    assert_eq!(asked(&limited, &mut second), Some(Refusal::Visits));
    let fewer = Columns { commitments: 2, ..COLUMNS };
    let fewer = Question { columns: fewer, ..question(&[1]) };
    assert_eq!(asked(&fewer, &mut second), Some(Refusal::Counts));
    // The constraint's own number is none of the pool's.
    assert_eq!(asked(&question(&[1]), &mut marked), Some(Refusal::Malformed));
    // It needs six steps.
    assert_eq!(asked(&question(&[1]), &mut tight), Some(Refusal::Full));
    assert_eq!((first, second, marked, tight), before);
}

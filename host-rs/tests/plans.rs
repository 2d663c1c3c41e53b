//! Plans mapped, and lists fixed and given dimensions: vectors of vectors/plans.txt.

use enonkasse::map::{map, Column, Section, Width};
use enonkasse::plan::{Intermediate, Product};
use enonkasse::walks::{dimension, dimension_first, fix, query};
use enonkasse::{
    Domain, ExpressionId, Flags, List, NodeKind, Plan, Pool, Reference, ReferenceKind, Refusal,
    Segment, Step, StepKind,
};

/// e0 = cm0·cm1, e1 = challenge0, and the leaves behind it.
fn pool(cms: &[u16]) -> Pool {
    let mut pool = Pool::new();
    let (a, b) = (pool.cm(0), pool.cm(1));
    let product = pool.mul(a, b);
    let challenge = pool.leaf(NodeKind::Challenge, 0);
    let leaves: Vec<_> = cms.iter().map(|&id| pool.cm(id)).collect();
    pool.expression(product, Flags::NONE);
    pool.expression(challenge, Flags::NONE);
    leaves.into_iter().for_each(|leaf| {
        pool.expression(leaf, Flags::NONE);
    });
    pool
}

fn product(num: u16, den: u16) -> Product {
    Product { num: ExpressionId(num), den: ExpressionId(den) }
}

fn steps(segment: &Segment, pool: &Pool) -> Vec<String> {
    segment.first.steps(&pool.frames()).unwrap().iter().map(ToString::to_string).collect()
}

/// m01-over-a-product
fn over_a_product() -> Plan {
    Plan {
        q_deg: 1,
        pe: vec![product(1, 1)],
        intermediates: vec![Intermediate { expression: ExpressionId(0), cm: 3 }],
        ..Plan::new(3, 4, 2, ExpressionId(0))
    }
    .with_columns_counted()
}

#[test]
fn a_plan_is_mapped() {
    let plan = over_a_product();
    assert_eq!(plan.columns, [2, 0, 2, 1]);
    let map = map(&pool(&[2, 3]).frames(), &plan).unwrap();
    let records = map.records.iter().map(|record| {
        format!("{}:{}:{}", record.section as usize, record.dimension, record.position)
    });
    assert_eq!(
        records.collect::<Vec<_>>().join(" "),
        "0:1:0 5:1:0 0:1:1 5:1:1 2:3:1 7:3:1 4:3:0 2:1:0 7:1:0 3:1:0 8:1:0 9:1:0 10:3:0"
    );
    assert_eq!(map.cm_n, [0, 2, 4, 7, 9]);
    assert_eq!(map.cm_2ns, [1, 3, 5, 8, 10]);
    assert_eq!(map.columns, [Column { expression: ExpressionId(1), record: 6 }]);
    assert_eq!(map.exp2pol, [Some(7), Some(6), None, None]);
    assert_eq!(map.cm_dims, [1, 1, 1, 0, 1]);
    assert_eq!(map.q_dim, 1);
    let row = |part: fn(&Width) -> u16| map.widths.iter().map(part).collect::<Vec<_>>();
    assert_eq!(row(|width| width.n1), [2, 0, 1, 1, 0, 2, 0, 1, 1, 1, 0]);
    assert_eq!(row(|width| width.n), [2, 0, 4, 1, 3, 2, 0, 4, 1, 1, 3]);
    assert_eq!(row(|width| width.n3), [0, 0, 1, 0, 1, 0, 0, 1, 0, 0, 1]);
    assert_eq!(map.offsets, [0, 16, 16, 48, 56, 80, 112, 112, 176, 192, 208]);
    assert_eq!(map.total, 256);
    assert_eq!(map.records[6].section, Section::TmpExpN);
    assert_eq!(Section::TmpExpN.to_string(), "tmpexp_n");
}

/// With the records of q and f they are 4,096.
#[test]
fn the_largest_plan_is_mapped() {
    let mut pool = pool(&[2]);
    for id in 0..509 {
        let leaf = pool.cm(id);
        pool.expression(leaf, Flags::NONE);
    }
    let plan = |cm1| Plan::new(24, 28, cm1, ExpressionId(0));
    let largest = map(&pool.frames(), &plan(2047)).unwrap();
    assert_eq!((largest.records.len(), largest.cm_n.len()), (4096, 2047));
    assert_eq!((largest.cm_dims.len(), largest.exp2pol.len()), (2047, 512));
    assert_eq!(map(&pool.frames(), &plan(2048)), Err(Refusal::Full));
}

fn cm(id: u16) -> Reference {
    Reference::new(ReferenceKind::Cm, id)
}

fn exp(id: u16) -> Reference {
    Reference::new(ReferenceKind::Exp, id)
}

fn tmp(id: u16) -> Reference {
    Reference::new(ReferenceKind::Tmp, id)
}

fn copy(destination: Reference, source: Reference) -> Step {
    Step::new(StepKind::Copy, destination, &[source])
}

fn segment(steps: &[Step]) -> Segment {
    Segment { first: List::of(steps), ..Segment::default() }
}

/// m03-list-with-dimensions
#[test]
fn a_list_is_fixed_and_given_dimensions() {
    let plan = Plan { ci: vec![product(0, 1)], ..Plan::new(3, 4, 2, ExpressionId(0)) };
    let (pool, plan) = (pool(&[]), plan.with_columns_counted());
    let add = Step::new(StepKind::Add, exp(1), &[exp(0), exp(1).primed()]);
    let mut segment = segment(&[copy(exp(0), cm(0)), add]);
    fix(&pool.frames(), &plan, Domain::N, &mut segment).unwrap();
    dimension(&pool.frames(), &plan, 1, &mut segment).unwrap();
    let expected = ["tmpExp:0@d1 = copy cm:0@d1", "tmpExp:1@d3 = add tmpExp:0@d1 tmpExp:1'@d3"];
    assert_eq!(steps(&segment, &pool), expected);
    assert_eq!(segment.counter, 0);
}

/// m02-in-a-list
#[test]
fn columns_get_their_records_and_dimensions() {
    let (pool, plan) = (pool(&[2, 3]), over_a_product());
    let mut segment = segment(&[copy(tmp(0), cm(2)), copy(tmp(1), cm(3))]);
    fix(&pool.frames(), &plan, Domain::N, &mut segment).unwrap();
    dimension(&pool.frames(), &plan, 1, &mut segment).unwrap();
    let expected = ["tmp:0@d3 = copy cm:2@d3,p4", "tmp:1@d1 = copy cm:3@d1,p7"];
    assert_eq!(steps(&segment, &pool), expected);
}

/// An expression without a column takes a temporary for the segment, and its counter goes on.
#[test]
fn fixing_goes_on_with_the_counter() {
    let (pool, plan) = (pool(&[2, 3]), over_a_product());
    let mut segment = Segment { counter: 5, ..segment(&[copy(exp(1), cm(0))]) };
    fix(&pool.frames(), &plan, Domain::Extended, &mut segment).unwrap();
    assert_eq!(segment.counter, 6);
    assert_eq!(steps(&segment, &pool), ["tmp:5@e1 = copy cm:0@p1"]);
}

#[test]
fn the_query_code_reads_trees() {
    let (pool, plan) = (pool(&[2, 3]), over_a_product());
    let mut segment = segment(&[copy(tmp(0), cm(2))]);
    fix(&pool.frames(), &plan, Domain::Extended, &mut segment).unwrap();
    query(&pool.frames(), &plan, &mut segment).unwrap();
    assert_eq!(steps(&segment, &pool), ["tmp:0 = copy tree3:2@d3,p5,t1"]);
}

#[test]
fn a_first_list_has_x_dimension_3() {
    let (pool, plan) = (pool(&[2, 3]), over_a_product());
    let x = Reference::new(ReferenceKind::X, 0);
    let mut segment = segment(&[copy(tmp(0), x)]);
    dimension_first(&pool.frames(), &plan, &mut segment.first).unwrap();
    assert_eq!(steps(&segment, &pool), ["tmp:0@d3 = copy x:0@d3"]);
}

/// The number, and that the segment is as it was.
fn refused(plan: &Plan, segment: &Segment) -> (Option<Refusal>, Option<Refusal>) {
    let frames = pool(&[2, 3]).frames();
    let (mut fixed, mut dimensioned) = (segment.clone(), segment.clone());
    let fix = fix(&frames, plan, Domain::N, &mut fixed).err();
    let dimension = dimension(&frames, plan, 1, &mut dimensioned).err();
    for (refusal, after) in [(fix, fixed), (dimension, dimensioned)] {
        assert!(refusal.is_none() || after == *segment);
    }
    assert!(map(&frames, plan).is_ok() || fix.is_some());
    (fix, dimension)
}

#[test]
fn a_refused_plan_leaves_lists_alone() {
    let segment = segment(&[copy(exp(1), cm(0))]);
    let both = |plan: Plan, refusal| {
        assert_eq!(refused(&plan, &segment), (Some(refusal), Some(refusal)));
        assert_eq!(map(&pool(&[2, 3]).frames(), &plan), Err(refusal));
    };
    let plan = over_a_product;
    both(Plan { n_bits: 25, ..plan() }, Refusal::Bits);
    both(Plan { n_bits_ext: 2, ..plan() }, Refusal::Bits);
    both(Plan { columns: [2, 0, 3, 1], ..plan() }, Refusal::Counts);
    both(Plan { q_deg: 2, ..plan() }, Refusal::Counts);
    both(Plan { c_exp: ExpressionId(3), ..plan() }, Refusal::NoDimension);
    both(Plan { c_exp: ExpressionId(4), ..plan() }, Refusal::NotThere);
    both(Plan { columns: [4096, 0, 2, 1], ..plan() }, Refusal::Full);
    let intermediate = plan().intermediates[0];
    both(Plan { intermediates: vec![intermediate; 2], ..plan() }, Refusal::Malformed);
}

#[test]
fn a_refused_list_is_left_alone() {
    let plan = over_a_product();
    let unwritten = segment(&[copy(tmp(0), cm(0)), copy(tmp(1), tmp(9))]);
    assert_eq!(refused(&plan, &unwritten), (None, Some(Refusal::NoRule)));
    let lost = segment(&[copy(tmp(0), cm(0)), copy(tmp(1), cm(9))]);
    assert_eq!(refused(&plan, &lost), (Some(Refusal::NotThere), Some(Refusal::NotThere)));
    let mut bytes = unwritten.first.bytes().to_vec();
    bytes.pop();
    let short = Segment { first: List::from_bytes(bytes), ..Segment::default() };
    assert_eq!(refused(&plan, &short), (Some(Refusal::Malformed), Some(Refusal::Malformed)));
    let far = Segment { counter: 65_535, ..segment(&[copy(exp(2), cm(0))]) };
    assert_eq!(refused(&plan, &far).0, Some(Refusal::Full));
}

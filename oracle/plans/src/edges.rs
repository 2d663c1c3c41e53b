//! Chosen questions: each refusal of a plan on both sides of its edge, and which of two is given.

use crate::input::{Draft, Input};
use crate::plan::{Plan, MAX_RECORDS};
use crate::question::Question;
use crate::vectors::Case;
use crate::written::{intermediate, map, pool, pu, ratio, small, with_columns};
use judge::case::{add, cm, constant, exp, leaf, mul, neg, Tree};
use judge::kinds::Kind;
use judge::pool::{Expression, Flags, Node};

pub fn edges() -> Vec<Case> {
    [
        malformed(),
        past_the_limit(),
        child_counts(),
        nodes_not_there(),
        leaves_not_there(),
        entries_not_there(),
        cycles(),
        bits(),
        counts(),
        no_dimension(),
        orders(),
    ]
    .concat()
}

/// e0 = cm0·cm1, e1 = e0 + q0, e2 = -e1, e3 a const; q0 is e3.
fn trees() -> Vec<Tree> {
    vec![mul(cm(0), cm(1)), add(exp(0), leaf(Kind::Q, 0)), neg(exp(1)), constant(0)]
}

/// One of everything, two intermediates: ten columns.
fn plan() -> Plan {
    let plan = Plan {
        q_deg: 1,
        c_exp: 2,
        pu: vec![pu(0, 1, 2, 3)],
        pe: vec![ratio(0, 3)],
        ci: vec![ratio(2, 2)],
        intermediates: vec![intermediate(0, 7), intermediate(1, 8)],
        qs: vec![4],
        q2exp: vec![3],
        ..small()
    };
    with_columns(2, plan)
}

fn of_plan(name: &str, plan: &Plan) -> Case {
    Case::new(name, map(&trees(), plan))
}

fn of_bytes(name: &str, plan: Vec<u8>) -> Case {
    Case::new(name, Question::Map(Input { pool: pool(&trees()), plan }))
}

fn of_pool(name: &str, pool: Draft) -> Case {
    Case::new(name, Question::Map(Input::new(pool, &plan())))
}

fn changed(change: impl FnOnce(&mut Plan)) -> Plan {
    let mut plan = plan();
    change(&mut plan);
    plan
}

fn malformed() -> Vec<Case> {
    let bytes = plan().bytes();
    let with = |pairs: &[(u16, u16)]| {
        changed(|plan| {
            plan.intermediates = pairs.iter().map(|&(e, cm)| intermediate(e, cm)).collect();
        })
    };
    vec![
        of_plan("edge-01-well-formed", &plan()),
        of_bytes("edge-01-a-byte-short", bytes[..bytes.len() - 1].to_vec()),
        of_bytes("edge-01-a-byte-long", [&bytes[..], &[0]].concat()),
        of_bytes("edge-01-half-a-head", bytes[..13].to_vec()),
        of_bytes("edge-01-one-byte", vec![3]),
        of_plan("edge-01-equal-intermediates", &with(&[(0, 7), (0, 8)])),
        of_plan("edge-01-descending-intermediates", &with(&[(1, 7), (0, 8)])),
        of_plan("edge-01-descending-columns", &with(&[(0, 8), (1, 7)])),
        of_plan("edge-01-equal-columns", &with(&[(0, 7), (1, 7)])),
    ]
}

/// 4,096 records are a test of this module: the answer is long.
fn past_the_limit() -> Vec<Case> {
    vec![
        of_plan("edge-09-one-record-more", &full(1)),
        of_plan("edge-09-two-records-more", &full(2)),
        of_plan(
            "edge-09-largest-counts",
            &changed(|plan| {
                plan.n_cm = [u16::MAX; 4];
                plan.q_deg = u16::MAX;
            }),
        ),
    ]
}

/// So many records more than there may be; of two temporary columns one is given up for an odd
/// number.
fn full(more: usize) -> Plan {
    let mut plan = Plan { n_bits: 24, n_bits_ext: 28, ..plan() };
    if (MAX_RECORDS + more - plan.records()) % 2 == 1 {
        plan.pu[0].ratio.num = 3;
        plan.ci[0] = ratio(3, 3);
    }
    plan.n_cm[0] += ((MAX_RECORDS + more - plan.records()) / 2) as u16;
    plan
}

fn child_counts() -> Vec<Case> {
    let with = |name: &str, node: usize, children: &[u16]| {
        let mut pool = pool(&trees());
        pool.nodes[node].children = children.to_vec();
        of_pool(name, pool)
    };
    vec![
        with("edge-02-a-product-of-one", 2, &[0]),
        with("edge-02-a-product-of-three", 2, &[0, 1, 1]),
        with("edge-02-a-leaf-with-a-child", 1, &[0]),
        with("edge-02-before-3", 2, &[9]),
    ]
}

fn nodes_not_there() -> Vec<Case> {
    let with_child = |name: &str, child: u16| {
        let mut pool = pool(&trees());
        pool.nodes[2].children[1] = child;
        of_pool(name, pool)
    };
    let with_root = |name: &str, root: u16| {
        let mut pool = pool(&trees());
        pool.expressions[3].root = root;
        of_pool(name, pool)
    };
    vec![
        with_child("edge-03-a-child-of-itself", 2),
        with_child("edge-03-a-later-child", 3),
        with_child("edge-03-a-child-twice", 0),
        with_root("edge-03-a-root-that-is-a-child", 0),
        with_root("edge-03-a-root-beyond", 9),
    ]
}

fn leaves_not_there() -> Vec<Case> {
    let with = |name: &str, kind: Kind, id: u16, dead: bool| {
        let mut pool = pool(&trees());
        let root = pool.nodes.len() as u16;
        let (next, children, literal) = (false, Vec::new(), None);
        pool.nodes.push(Node { kind, next, id, children, literal });
        if !dead {
            pool.expressions.push(Expression { root, flags: Flags::NONE });
        }
        of_pool(name, pool)
    };
    vec![
        with("edge-03-the-last-column", Kind::CM, 9, false),
        with("edge-03-a-column-beyond", Kind::CM, 10, false),
        with("edge-03-an-unused-column-beyond", Kind::CM, 10, true),
        with("edge-03-the-last-expression", Kind::EXP, 3, false),
        with("edge-03-an-expression-beyond", Kind::EXP, 5, false),
        with("edge-03-an-unused-expression-beyond", Kind::EXP, 4, true),
        with("edge-03-the-last-q", Kind::Q, 0, false),
        with("edge-03-a-q-beyond", Kind::Q, 1, false),
        with("edge-03-an-unused-q-beyond", Kind::Q, 1, true),
        with("edge-03-any-const", Kind::CONST, u16::MAX, false),
    ]
}

/// A number of a plan.
type Place = fn(&mut Plan) -> &mut u16;

/// Each expression number of the plan as the first that is not there.
fn entries_not_there() -> Vec<Case> {
    let places: [(&str, Place); 11] = [
        ("f", |plan| &mut plan.pu[0].f),
        ("t", |plan| &mut plan.pu[0].t),
        ("num-of-pu", |plan| &mut plan.pu[0].ratio.num),
        ("den-of-pu", |plan| &mut plan.pu[0].ratio.den),
        ("num-of-pe", |plan| &mut plan.pe[0].num),
        ("den-of-pe", |plan| &mut plan.pe[0].den),
        ("num-of-ci", |plan| &mut plan.ci[0].num),
        ("den-of-ci", |plan| &mut plan.ci[0].den),
        ("intermediate", |plan| &mut plan.intermediates[1].expression),
        ("c-exp", |plan| &mut plan.c_exp),
        ("q2exp", |plan| &mut plan.q2exp[0]),
    ];
    let case = |(name, place): (&str, Place)| {
        let beyond = trees().len() as u16;
        of_plan(&format!("edge-03-{}-beyond", name), &changed(|plan| *place(plan) = beyond))
    };
    let qs = of_plan("edge-03-qs-are-not-looked-at", &changed(|plan| plan.qs = vec![u16::MAX]));
    let cm = changed(|plan| plan.intermediates[1].cm = u16::MAX);
    let cm = of_plan("edge-03-columns-of-intermediates-are-not-looked-at", &cm);
    places.into_iter().map(case).chain([qs, cm]).collect()
}

fn cycles() -> Vec<Case> {
    // Node 3 is the exp leaf of e1, node 4 its q leaf, node 8 the const of e3.
    let with = |name: &str, node: usize, kind: Kind, id: u16, q2exp: &[u16]| {
        let mut pool = pool(&trees());
        pool.nodes[node] = Node { kind, id, ..pool.nodes[node].clone() };
        let plan = Plan { q2exp: q2exp.to_vec(), ..plan() };
        Case::new(name, Question::Map(Input::new(pool, &plan)))
    };
    vec![
        with("edge-04-exp-of-itself", 3, Kind::EXP, 1, &[3]),
        with("edge-04-exp-of-two", 3, Kind::EXP, 2, &[3]),
        with("edge-04-q-of-itself", 4, Kind::Q, 0, &[1]),
        with("edge-04-q-and-exp", 4, Kind::Q, 0, &[2]),
        with("edge-04-q-of-two", 8, Kind::Q, 1, &[3, 1]),
        with("edge-04-another-q", 8, Kind::Q, 1, &[3, 0]),
        with("edge-04-an-entry-that-no-leaf-has", 8, Kind::CONST, 0, &[3, 1]),
    ]
}

fn bits() -> Vec<Case> {
    let case = |(n_bits, n_bits_ext): (u8, u8)| {
        let name = format!("edge-16-bits-{}-{}", n_bits, n_bits_ext);
        of_plan(&name, &Plan { n_bits, n_bits_ext, ..plan() })
    };
    let pairs = [
        (0, 0),
        (0, 4),
        (0, 5),
        (1, 0),
        (24, 24),
        (24, 28),
        (24, 29),
        (24, 23),
        (25, 25),
        (25, 28),
        (255, 255),
        (255, 0),
        (0, 255),
    ];
    pairs.into_iter().map(case).collect()
}

type Change = fn(&mut Plan);

fn counts() -> Vec<Case> {
    let mut cases = Vec::new();
    for place in 1..4 {
        for (word, by) in [("more", 1), ("fewer", u16::MAX)] {
            let name = format!("edge-11-n-cm{}-one-{}", place + 1, word);
            let plan = changed(|plan| plan.n_cm[place] = plan.n_cm[place].wrapping_add(by));
            cases.push(of_plan(&name, &plan));
        }
    }
    let more: [(&str, Change); 5] = [
        ("pu", |plan| plan.pu.push(plan.pu[0])),
        ("pe", |plan| plan.pe.push(plan.pe[0])),
        ("ci", |plan| plan.ci.push(plan.ci[0])),
        ("intermediate", |plan| plan.intermediates.push(intermediate(2, 9))),
        ("q-deg", |plan| plan.q_deg += 1),
    ];
    for (word, change) in more {
        cases.push(of_plan(&format!("edge-11-one-{}-more", word), &changed(change)));
    }
    cases
}

fn no_dimension() -> Vec<Case> {
    let last = plan().columns() as u16 - 1;
    let with = |name: &str, more: &[Tree], change: Change| {
        Case::new(name, map(&[&trees()[..], more].concat(), &changed(change)))
    };
    let lookup = |plan: &mut Plan| (plan.pu[0].f, plan.pu[0].t) = (4, 4);
    vec![
        with("edge-12-lookup", &[cm(last)], lookup),
        with("edge-12-one-side-of-a-lookup", &[cm(last)], |plan| plan.pu[0].f = 4),
        with("edge-12-lookup-of-a-negated", &[neg(cm(last))], lookup),
        with("edge-12-intermediate", &[cm(last)], |plan| plan.intermediates[1].expression = 4),
        with("edge-12-quotient", &[cm(last)], |plan| plan.c_exp = 4),
        with("edge-12-through-exp", &[cm(last), exp(4)], |plan| plan.c_exp = 5),
        with("edge-12-through-q", &[cm(last), leaf(Kind::Q, 1)], |plan| {
            plan.c_exp = 5;
            plan.q2exp.push(4);
        }),
        with("edge-12-no-quotient-columns", &[cm(last - 1)], |plan| {
            plan.c_exp = 4;
            plan.q_deg = 0;
            plan.n_cm[3] = 0;
        }),
        with("edge-12-a-numerator-may-have-none", &[cm(last)], |plan| plan.pe[0] = ratio(4, 4)),
    ]
}

/// A plan with two faults: the number that is given is the one that comes first in the order of
/// document 01.
fn orders() -> Vec<Case> {
    let bad_bits = |plan: &mut Plan| plan.n_bits = 25;
    let bad_counts = |plan: &mut Plan| plan.n_cm[1] += 1;
    let cyclic = |plan: &mut Plan| plan.q2exp[0] = 1;
    let absent = |plan: &mut Plan| plan.c_exp = 9;
    let flat = |name: &str, changes: &[&dyn Fn(&mut Plan)]| {
        of_plan(name, &changed(|plan| changes.iter().for_each(|change| change(plan))))
    };
    let too_long = [&full(2).bytes()[..], &[0]].concat();
    let mut fewer_children = pool(&trees());
    fewer_children.nodes[2].children.pop();
    let both = |name: &str, pool: &Draft, plan: Vec<u8>| {
        Case::new(name, Question::Map(Input { pool: pool.clone(), plan }))
    };
    vec![
        of_bytes("order-1-before-9", too_long),
        both("order-1-before-2", &fewer_children, vec![0]),
        both("order-9-before-2", &fewer_children, full(1).bytes()),
        both("order-2-before-3", &fewer_children, changed(absent).bytes()),
        flat("order-3-before-4", &[&absent, &cyclic]),
        flat("order-4-before-16", &[&cyclic, &bad_bits]),
        flat("order-16-before-11", &[&bad_bits, &bad_counts]),
        Case::new(
            "order-11-before-12",
            map(
                &[trees(), vec![cm(9)]].concat(),
                &changed(|plan| {
                    plan.c_exp = 4;
                    plan.n_cm[3] += 1;
                }),
            ),
        ),
    ]
}

#[cfg(test)]
mod tests {
    use super::*;
    use crate::question::{Answer, Given};
    use asked::question::Question;
    use judge::run::on_large_stack;

    #[test]
    fn as_many_records_as_there_may_be_are_mapped() {
        for more in [0, 1] {
            let question = map(&trees(), &full(more));
            let answer = on_large_stack(|| question.ask()).unwrap();
            match answer {
                Answer::Given(Given::Mapped(mapped)) => {
                    assert_eq!((more, mapped.records.len()), (0, MAX_RECORDS));
                    assert!(mapped.total > 1 << 28, "{}", mapped.total);
                }
                other => assert_eq!((more, other), (1, Answer::Refused(9))),
            }
        }
    }
}

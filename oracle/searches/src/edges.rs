//! Chosen questions: each refusal on both sides of its edge, which of two is given, and limits around
//! the visits that are needed.

use crate::constraint::Constraint;
use crate::search::{visits_needed, Search};
use crate::surprises::{
    asks, asks_constraint, constraint, cube, cut, documents, q, search, surprises, x,
};
use crate::vectors::Case;
use judge::case::{add, addc, cm, constant, exp, leaf, mul, muladd, mulc, neg, number, sub, Tree};
use judge::kinds::Kind;
use std::slice::from_ref;

/// Limits are tried around the visits of questions that need at most so many.
const FEW_VISITS: u64 = 2_000;

pub fn edges() -> Vec<Case> {
    [bits(), identities(), kinds(), operations(), sizes(), orders(), columns(), limits()].concat()
}

fn bits() -> Vec<Case> {
    let of = |n_bits: u8, n_bits_ext: u8| {
        let name = format!("edge-16-{}-to-{}", n_bits, n_bits_ext);
        asks(&name, Search { n_bits, n_bits_ext, ..search(&cut(), &[1], 0) })
    };
    let pairs = [
        (0, 0),
        (0, 4),
        (0, 5),
        (1, 0),
        (3, 2),
        (3, 7),
        (3, 8),
        (24, 23),
        (24, 24),
        (24, 28),
        (24, 29),
        (25, 25),
        (25, 24),
        (255, 255),
        (252, 0),
        (0, 255),
        (254, 2),
    ];
    pairs.into_iter().map(|(n_bits, n_bits_ext)| of(n_bits, n_bits_ext)).collect()
}

fn identities() -> Vec<Case> {
    let of = |name: &str, identities: &[u16]| asks(name, search(&cut(), identities, 1));
    vec![
        of("edge-17-none", &[]),
        of("edge-17-one", &[0]),
        of("edge-17-one-twice", &[0, 0]),
        of("edge-17-the-cut-one-twice", &[1, 1]),
        of("edge-17-both-ways", &[1, 0]),
        of("edge-17-the-other-way", &[0, 1]),
        of("edge-17-forty", &[1; 40]),
        of("edge-03-the-first-beyond", &[2]),
        of("edge-03-after-one-that-is-there", &[1, 2]),
        of("edge-03-before-one-that-is-there", &[65535, 0]),
    ]
}

/// What is put around a leaf.
type Shape = fn(Tree) -> Tree;

/// Each kind as an identity, in a sum, in a product that is not split and in one that is.
fn kinds() -> Vec<Case> {
    let id = |kind: Kind| u16::from(kind.has_id());
    let shapes: [(&str, Shape); 6] = [
        ("bare", |leaf| leaf),
        ("summed", |leaf| add(cm(0), leaf)),
        ("times-a-number", |leaf| mul(leaf, number(3))),
        ("squared", |leaf| mul(leaf.clone(), leaf)),
        ("times-a-cube", |leaf| mul(leaf, cube())),
        ("a-cube-times", |leaf| mul(mul(cm(0), cm(1)), add(leaf, cm(2)))),
    ];
    let leaves = [
        Kind::CM,
        Kind::CONST,
        Kind::Q,
        Kind::PUBLIC,
        Kind::CHALLENGE,
        Kind::EVAL,
        Kind::X_DIV_X_SUB_XI,
        Kind::X_DIV_X_SUB_WXI,
        Kind::X,
    ];
    let case = |kind: Kind, (shape, tree): (&str, Shape)| {
        let name = format!("edge-06-{}-{}", kind.word(), shape);
        asks(&name, search(&[tree(leaf(kind, id(kind)))], &[0], 1))
    };
    leaves
        .into_iter()
        .flat_map(|kind| shapes.into_iter().map(move |shape| case(kind, shape)))
        .collect()
}

fn operations() -> Vec<Case> {
    let square = || mul(cm(0), cm(1));
    let of = |name: &str, tree: Tree, more_bits: u8| {
        asks(&format!("edge-06-{}", name), search(&[square(), tree], &[1], more_bits))
    };
    let fused = || muladd(cm(0), cm(1), cm(2));
    vec![
        of("a-muladd", fused(), 1),
        of("a-muladd-in-a-product", mul(fused(), cm(3)), 1),
        of("a-muladd-in-a-product-that-is-split", mul(fused(), cm(3)), 0),
        of("a-muladd-larger-by-its-third", mul(muladd(cm(0), number(1), cube()), number(0)), 2),
        of("full-degree-of-a-muladd", mul(muladd(cm(0), number(1), cube()), cm(3)), 2),
        of("a-muladd-that-a-full-degree-reads", mul(muladd(number(1), number(2), cm(0)), cm(1)), 0),
        of("a-muladd-by-eval", mul(muladd(cm(0), cm(1), number(2)), leaf(Kind::EVAL, 0)), 1),
        of("a-muladd-by-an-expression", mul(muladd(exp(0), number(1), x()), number(0)), 1),
        of("a-difference", sub(exp(0), mul(exp(0), cm(2))), 0),
        of("a-negation", neg(mul(exp(0), cm(2))), 0),
        of("a-literal-added", addc(mul(exp(0), addc(cm(2), 5)), -1), 0),
        of("a-literal-times", mulc(mul(exp(0), mulc(cm(2), 5)), -1), 0),
        of("a-public-first", mul(leaf(Kind::PUBLIC, 0), mul(exp(0), cm(2))), 0),
        of("a-challenge-second", mul(mul(exp(0), cm(2)), leaf(Kind::CHALLENGE, 0)), 0),
        of("two-numbers", mul(number(2), number(3)), 0),
        of("numbers-and-x", mul(number(2), mul(x(), constant(0))), 0),
    ]
}

/// Products by the bits that they need, and a chain of expressions in which each becomes a member.
fn sizes() -> Vec<Case> {
    let powers = |count: u16| (1..count).fold(cm(0), |tree, id| mul(tree, cm(id)));
    let mut cases = Vec::new();
    for more_bits in 0..3 {
        for count in [(1 << more_bits) + 1, (1 << more_bits) + 2] {
            let name = format!("edge-13-{}-factors-{}-bits", count, more_bits);
            cases.push(asks(&name, search(&[powers(count)], &[0], more_bits)));
        }
    }
    let mut chain = vec![mul(cm(0), cm(1))];
    chain.extend((0..19).map(|e| mul(exp(e), cm(e + 2))));
    let all: Vec<u16> = (0..20).collect();
    cases.push(asks("edge-13-nineteen-members", search(&chain, &all, 0)));
    cases.push(asks("edge-13-a-chain-of-six", search(&chain[..7], &[6], 0)));
    cases.push(asks("edge-13-a-chain-of-five-and-two-bits", search(&chain[..6], &[5], 2)));
    let folded = neg(add(number(1), mul(number(2), leaf(Kind::PUBLIC, 3))));
    cases.push(asks("edge-14-numbers-only", search(from_ref(&folded), &[0], 4)));
    cases.push(asks("edge-14-numbers-by-way-of-a-leaf", search(&[folded, exp(0)], &[1, 1], 1)));
    cases
}

fn orders() -> Vec<Case> {
    let wrong_bits = |identities: &[u16]| Search { n_bits: 25, ..search(&cut(), identities, 0) };
    let no_visit =
        |trees: &[Tree], identities: &[u16]| Search { limit: 0, ..search(trees, identities, 0) };
    vec![
        asks("order-17-before-16", Search { limit: 0, ..wrong_bits(&[]) }),
        asks("order-16-before-3", Search { limit: 0, ..wrong_bits(&[9]) }),
        asks("order-3-before-15", no_visit(&cut(), &[9])),
        asks("order-3-before-6", search(&[q()], &[0, 9], 0)),
        asks("order-15-before-6", Search { limit: 1, ..search(&[q()], &[0], 0) }),
        asks("order-6-at-its-visit", Search { limit: 2, ..search(&[q()], &[0], 0) }),
        asks("order-15-before-13", Search { limit: 13, ..search(&[cube()], &[0], 0) }),
        asks("order-15-before-14", Search { limit: 1, ..search(&[number(5)], &[0], 0) }),
        asks("order-14-at-its-visit", Search { limit: 2, ..search(&[number(5)], &[0], 0) }),
    ]
}

fn columns() -> Vec<Case> {
    let one = |identity| constraint(search(&cut(), &[identity], 0));
    let of = |n_cm1, n_cm2, commitments| Constraint { n_cm1, n_cm2, commitments, ..one(1) };
    let prime = || {
        let trees = [mul(cm(0).next(), cm(1)), mul(exp(0).next(), cm(2)), mul(exp(1), cm(3))];
        constraint(search(&trees, &[2], 0))
    };
    let short = |constraint| Constraint { n_cm1: 7, ..constraint };
    vec![
        asks_constraint("edge-11-as-many", of(4, 2, 6)),
        asks_constraint("edge-11-one-less", of(4, 3, 6)),
        asks_constraint("edge-11-many-less", of(65535, 65535, 6000)),
        asks_constraint("edge-09-the-last-columns", of(3, 2, 65534)),
        asks_constraint("edge-09-one-column-beyond", of(3, 2, 65535)),
        asks_constraint("order-9-before-11", of(65535, 65535, 65535)),
        asks_constraint("edge-11-none", of(0, 0, 0)),
        asks_constraint("order-13-before-11", short(constraint(search(&[cube()], &[0], 0)))),
        asks_constraint("order-14-before-11", short(constraint(search(&[number(5)], &[0], 0)))),
        asks_constraint("order-11-before-5", short(prime())),
        asks_constraint(
            "edge-05-in-the-constraint",
            constraint(Search {
                identities: vec![1],
                ..search(&[cm(0).next(), add(exp(0).next(), cm(1))], &[], 1)
            }),
        ),
    ]
}

/// One visit less than needed, as many, one more, and none.
fn limits() -> Vec<Case> {
    let mut cases = Vec::new();
    for case in [documents(), surprises(), kinds()].concat() {
        let needed = match visits_needed(case.question.search()) {
            Some(needed @ 1..=FEW_VISITS) if is_asked(&case.name) => needed,
            _ => continue,
        };
        for limit in [0, needed - 1, needed, needed + 1] {
            let name = format!("limit-{}-{}", limit, case.name);
            cases.push(Case::new(&name, case.question.limited(limit)));
        }
    }
    cases
}

/// Those of which limits are tried: one of a kind is enough.
fn is_asked(name: &str) -> bool {
    let heads = [
        "doc-equal",
        "doc-identity",
        "s02-a-q",
        "s03-and",
        "s06-a-small-one",
        "s08",
        "s09-two",
        "s10-a-kind-b",
        "s14-two",
        "s17-a-body",
    ];
    heads.iter().any(|head| name.starts_with(head)) || name == "edge-06-q-times-a-cube"
}

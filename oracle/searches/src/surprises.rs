//! Chosen questions: document 01's examples of the search, and the places where the original
//! surprises.

use crate::constraint::Constraint;
use crate::question::Question;
use crate::search::Search;
use crate::vectors::Case;
use judge::case::{
    add, addc, cm, constant, exp, leaf, mul, mulc, neg, number, plain, plain_pool, pool, primed,
    sub, Tree, BUILD,
};
use judge::kinds::Kind;
use judge::pool::{Flags, Pool};
use std::slice::from_ref;

/// Limits that no question here passes, unless it says another.
pub const ENOUGH: u64 = 1_000_000;

/// A search over these expressions, with so many bits more.
pub fn search(trees: &[Tree], identities: &[u16], more_bits: u8) -> Search {
    search_of(plain_pool(trees), identities, more_bits)
}

pub fn flagged(expressions: &[(Tree, Flags)], identities: &[u16], more_bits: u8) -> Search {
    search_of(pool(expressions), identities, more_bits)
}

fn search_of(pool: Pool, identities: &[u16], more_bits: u8) -> Search {
    let (n_bits, n_bits_ext) = (3, 3 + more_bits);
    Search { pool, identities: identities.to_vec(), n_bits, n_bits_ext, limit: ENOUGH }
}

/// Its constraint: three columns of cm1, two of cm2, six in all, vc number 4, fresh contexts.
pub fn constraint(search: Search) -> Constraint {
    let (n_cm1, n_cm2, commitments, vc) = (3, 2, 6, 4);
    let (first, second) = (Vec::new(), Vec::new());
    Constraint { search, n_cm1, n_cm2, commitments, vc, first, second }
}

pub fn asks(name: &str, search: Search) -> Case {
    Case::new(name, Question::Search(search))
}

pub fn asks_constraint(name: &str, constraint: Constraint) -> Case {
    Case::new(name, Question::Constraint(constraint))
}

/// The tree of the last expression, the others as they are, is the identity.
fn last(name: &str, trees: &[Tree], more_bits: u8) -> Case {
    asks(name, search(trees, &[trees.len() as u16 - 1], more_bits))
}

fn limited(name: &str, trees: &[Tree], more_bits: u8, limit: u64) -> Case {
    let case = last(name, trees, more_bits);
    Case { question: case.question.limited(limit), ..case }
}

pub fn x() -> Tree {
    leaf(Kind::X, 0)
}

pub fn q() -> Tree {
    leaf(Kind::Q, 0)
}

fn eval() -> Tree {
    leaf(Kind::EVAL, 0)
}

/// cm0·cm1·cm2.
pub fn cube() -> Tree {
    mul(mul(cm(0), cm(1)), cm(2))
}

/// e0 = cm0·cm1, e1 = e0·cm2.
pub fn cut() -> [Tree; 2] {
    [mul(cm(0), cm(1)), mul(exp(0), cm(2))]
}

/// A sum that the full degree takes for 1 and a visit for 0.
fn two() -> Tree {
    add(number(1), number(1))
}

pub fn documents() -> Vec<Case> {
    vec![
        last("doc-equal-bits", &cut(), 0),
        last("doc-one-bit-more", &cut(), 1),
        limited("doc-limit-12", &cut(), 1, 12),
        limited("doc-limit-11", &cut(), 1, 11),
        last("doc-identity-cm", &[cm(0)], 0),
        last("doc-identity-number", &[number(5)], 0),
    ]
}

pub fn surprises() -> Vec<Case> {
    [kept(), degrees(), cuts(), kinds(), leaves(), generation(), constraints()].concat()
}

fn kept() -> Vec<Case> {
    let (twos, ones) = (mul(mul(two(), two()), cm(0)), mul(mul(two(), two()), two()));
    vec![
        last("s01-no-set-at-any-d", &[cube()], 0).note("The Rust falls through and reports q 0."),
        limited("s01-the-14-visits-of-it", &[cube()], 0, 14),
        limited("s01-one-visit-less", &[cube()], 0, 13),
        last("s02-a-q-of-0-is-replaced-by-2", from_ref(&twos), 1),
        last("s02-and-kept-where-it-is-the-last", &[twos], 0),
        last("s03-a-q-of-minus-1-is-replaced-by-2", from_ref(&ones), 1),
        last("s03-and-refused-where-it-is-the-last", &[ones], 0),
    ]
}

fn degrees() -> Vec<Case> {
    let twice = add(mul(exp(0), cm(2)), mul(exp(0), cm(3)));
    let deep = [mul(cm(0), cm(1)), mul(exp(0), cm(2)), mul(exp(1), cm(3)), mul(exp(2), exp(0))];
    vec![
        last("s04-a-sums-full-degree-is-at-least-1", &[mul(neg(number(5)), cm(0))], 0),
        last("s04-its-degree-in-a-visit-starts-at-0", &[neg(number(5))], 0),
        last("s05-the-full-degree-ignores-the-set", &[mul(cm(0), cm(1)), twice], 0),
        last("s05-through-the-bodies-of-members", &deep, 0),
        last("s05-two-bits-more", &deep, 2),
    ]
}

/// e0 = cm·cm, e1 = e0·cm, e2 = e0·e0 + e1·e0, e3 = e2·e0, e4 = addc(number),
/// e5 = (e3·e2)·(e2·cm), e6 = (e3·addc(number))·(e4·e5).
fn thrown_away() -> [Tree; 7] {
    [
        mul(cm(0), cm(1)),
        mul(exp(0), cm(2)),
        add(mul(exp(0), exp(0)), mul(exp(1), exp(0))),
        mul(exp(2), exp(0)),
        addc(number(7), 1),
        mul(mul(exp(3), exp(2)), mul(exp(2), cm(3))),
        mul(mul(exp(3), addc(number(7), 1)), mul(exp(4), exp(5))),
    ]
}

fn cuts() -> Vec<Case> {
    let first_wins = [
        mulc(mul(cm(0), cm(1)), 3),
        exp(0),
        addc(mul(exp(1), exp(0)), 1),
        mul(add(leaf(Kind::CHALLENGE, 0), cm(2)), mul(exp(2), x())),
    ];
    let body = [mul(cm(0), mul(cm(1), cm(2))), mul(exp(0), cm(3))];
    let branch = [mul(cm(0), cm(1)), mul(exp(0), mul(exp(0), cm(2)))];
    vec![
        last("s06-branches-thrown-away-count", &thrown_away(), 3),
        limited("s06-its-14753-visits", &thrown_away(), 3, 14_753),
        limited("s06-one-visit-less", &thrown_away(), 3, 14_752),
        last("s06-a-small-one", &branch, 0),
        last("s06-a-small-one-and-a-bit", &branch, 1),
        last("s08-the-first-smallest-set-wins", &first_wins, 3),
        last("s09-a-body-is-read-with-d", &body, 1),
        last("s09-and-gives-no-set-below-its-degree", &body, 0),
        last("s09-two-bits-more", &body, 2),
    ]
}

fn kinds() -> Vec<Case> {
    let first = [add(q(), cube())];
    let later = [add(cube(), q())];
    let product = mul(eval(), mul(cm(0), mul(cm(1), cm(2))));
    vec![
        last("s10-no-set-before-a-kind", &later, 0),
        limited("s10-its-16-visits", &later, 0, 16),
        limited("s10-one-visit-less", &later, 0, 15),
        last("s10-a-kind-before-no-set", &first, 0),
        limited("s10-its-3-visits", &first, 0, 3),
        limited("s10-2-visits-are-not-enough", &first, 0, 2),
        last("s11-eval-in-a-product-is-not-visited", &[mul(eval(), cm(0))], 0),
        last("s11-eval-in-a-sum", &[add(eval(), cm(0))], 0),
        last("s11-eval-beside-a-number", &[mul(number(3), eval())], 0),
        last("s11-eval-by-eval", &[mul(eval(), eval())], 0),
        last("s11-eval-where-a-product-is-split", &[product], 1),
    ]
}

fn leaves() -> Vec<Case> {
    let quotient = leaf(Kind::X_DIV_X_SUB_XI, 0);
    let both = [mul(cm(0), cm(1)), mul(exp(0), exp(0).next()), mul(exp(1), cm(2))];
    vec![
        last("s12-a-number-skips-the-full-degree", &[mul(number(3), quotient.clone())], 0),
        last("s12-and-without-it-the-product-meets-it", &[mul(cm(0), quotient)], 0),
        last("s12-a-bare-x", &[x()], 0),
        last("s14-primed-or-not-is-one-member", &both, 0),
        last("s14-two-bits-more", &both, 2),
    ]
}

/// e0 = cm0'·cm1, e1 = e0'·cm2.
fn double_prime() -> Vec<Tree> {
    vec![mul(cm(0).next(), cm(1)), mul(exp(0).next(), cm(2))]
}

fn generation() -> Vec<Case> {
    let mut deeper = double_prime();
    deeper.push(mul(exp(1), cm(3)));
    let (accepted, refused) = (search(&double_prime(), &[1], 0), search(&deeper, &[2], 0));
    vec![
        asks("s15-a-search-that-is-accepted", refused.clone()),
        asks_constraint("s15-and-step3-is-refused", constraint(refused)),
        asks_constraint("s16-a-member-with-next-inside-is-marked", constraint(accepted)),
    ]
}

/// e0 = cm0·cm1, e1 = e0·e0 + const0, e2 = e1·cm2, e3 = e0 - neg(cm3'), of which some are kept.
fn several() -> [(Tree, Flags); 4] {
    [
        (mul(cm(0), cm(1)), Flags::KEEP),
        (add(mul(exp(0), exp(0)), constant(0)), Flags::NONE),
        (mul(exp(1), cm(2)), Flags::ID_Q),
        (sub(exp(0), neg(cm(3).next())), Flags::KEEP2NS),
    ]
}

fn constraints() -> Vec<Case> {
    let one = || constraint(search(&cut(), &[1], 0));
    let many = |more_bits| constraint(flagged(&several(), &[2, 3, 0, 2], more_bits));
    let with = |first: &[_], second: &[_]| {
        let (first, second) = (first.to_vec(), second.to_vec());
        Constraint { first, second, ..many(0) }
    };
    vec![
        asks_constraint("s17-a-body-is-copied", one()),
        asks_constraint("s17-several-identities-and-bodies", many(0)),
        asks_constraint("s17-nothing-to-cut", constraint(search(&[cm(0)], &[0], 0))),
        asks_constraint("s17-nothing-to-cut-a-bit-more", constraint(search(&cut(), &[0], 1))),
        asks_constraint("s18-a-context-built-once", with(&[BUILD], &[])),
        asks_constraint("s18-the-second-built-once", with(&[], &[BUILD])),
        asks_constraint("s18-both-built-once", with(&[BUILD], &[BUILD])),
        asks_constraint("s18-requests-before", with(&[plain(1), primed(0)], &[plain(0)])),
        asks_constraint(
            "s18-before-and-after-a-build",
            with(&[plain(2), BUILD, plain(0)], &[BUILD]),
        ),
        asks_constraint("s19-members-then-q", many(1)),
        asks_constraint("s19-other-numbers", Constraint { n_cm1: 0, n_cm2: 0, vc: 65535, ..one() }),
    ]
}

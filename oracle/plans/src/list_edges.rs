//! Chosen questions: refusals of lists on both sides of their edges, and which of two is given.

use crate::plan::Plan;
use crate::vectors::Case;
use crate::walks::{Domain, Walk};
use crate::written::{intermediate, small, walk, with_columns};
use judge::case::{cm, constant, exp, leaf, Tree};
use judge::kinds::Kind;

const FIX_N: Walk = Walk::Fix(Domain::N);
const FIX_2NS: Walk = Walk::Fix(Domain::TwoNs);
const FIX_DIMS_2NS: Walk = Walk::FixDims(Domain::TwoNs);

pub fn edges() -> Vec<Case> {
    [
        fixing_in_order(),
        counters(),
        dimensions_in_order(),
        sources(),
        temporaries(),
        walks_in_order(),
    ]
    .concat()
}

/// e0 = cm0, e1 a challenge, e2 = e1 and an intermediate, e3 a const.
fn trees() -> Vec<Tree> {
    vec![cm(0), leaf(Kind::CHALLENGE, 0), exp(1), constant(0)]
}

/// cm0 and cm1 of cm1, cm2 the intermediate, cm3 the quotient's. Of q, 0 has dimension 1 and 1 has 3.
fn plan() -> Plan {
    let plan = Plan {
        q_deg: 1,
        c_exp: 1,
        intermediates: vec![intermediate(2, 2)],
        qs: vec![0, 4],
        ..small()
    };
    with_columns(2, plan)
}

fn ask(name: &str, kind: Walk, lines: &[&str]) -> Case {
    Case::new(&format!("list-{}", name), walk(&trees(), &plan(), kind, lines))
}

fn fixing_in_order() -> Vec<Case> {
    let ask = |name: &str, lines: &[&str]| ask(name, FIX_2NS, lines);
    vec![
        ask("fix-nothing", &[]),
        ask("fix-the-last-column", &["first tmp:0 = copy cm:3"]),
        ask("fix-a-column-beyond", &["first tmp:0 = copy cm:4"]),
        ask("fix-a-destination-beyond", &["first cm:4 = copy cm:0"]),
        ask("fix-3-then-10", &["first tmp:0 = add cm:4 Z:0"]),
        ask("fix-10-then-3", &["first tmp:0 = add Z:0 cm:4"]),
        ask("fix-sources-before-the-destination", &["first cm:4 = copy Z:0"]),
        ask("fix-the-destination-last", &["first Z:0 = copy cm:4"]),
        ask("fix-steps-in-order", &["first tmp:0 = copy cm:4", "first tmp:0 = copy tree1:0"]),
        ask("fix-i-before-last", &["i tmp:0 = copy tree1:0", "last tmp:0 = copy cm:4"]),
        ask("fix-first-before-i", &["first tmp:0 = copy cm:4", "i tmp:0 = copy tree1:0"]),
    ]
}

/// An answer that needs a number above 65,535 does not fit, which comes last.
fn counters() -> Vec<Case> {
    let new = |name: &str, counter: &str, more: &str| {
        ask(name, FIX_2NS, &[counter, "first tmp:0 = copy exp:0", more])
    };
    let again = "last exp:0 = copy exp:2";
    vec![
        new("fix-up-to-the-last-number", "counter 65534", again),
        new("fix-past-the-last-number", "counter 65534", "last exp:0' = copy exp:2"),
        new("fix-a-full-counter", "counter 65535", again),
        new("fix-9-after-10", "counter 65535", "last Z:0 = copy exp:2"),
        ask("fix-a-full-counter-unused", FIX_N, &["counter 65535", "first tmp:0 = copy exp:2"]),
    ]
}

fn dimensions_in_order() -> Vec<Case> {
    let ask = |name: &str, lines: &[&str]| ask(name, Walk::Dims, lines);
    vec![
        ask("dims-nothing", &[]),
        ask("dims-10-then-3", &["first tmp:0 = add f:0 cm:4"]),
        ask("dims-3-then-10", &["first tmp:0 = add cm:4 f:0"]),
        ask("dims-12-then-3", &["first tmp:0 = add tmpExp:0 cm:4"]),
        ask("dims-3-then-12", &["first tmp:0 = add q:2 tmpExp:0"]),
        ask("dims-12-then-10", &["first Zi:0 = muladd cm:0 cm:1 tree3:0"]),
        ask("dims-a-step-before-its-sources", &["first tmp:0 = step00 cm:4"]),
        ask("dims-a-source-before-a-missing-one", &["first tmp:0 = muladd cm:0 tree2:0"]),
        ask("dims-a-missing-one", &["first tmp:0 = muladd cm:0 tree2:0@d1"]),
        ask("dims-sources-before-the-destination", &["first const:0 = copy cm:4"]),
        ask("dims-the-destination-last", &["first const:0 = copy cm:3", "first f:0 = copy cm:4"]),
    ]
}

fn sources() -> Vec<Case> {
    let ask = |name: &str, lines: &[&str]| ask(name, Walk::Dims, lines);
    vec![
        ask("dims-largest-first", &["first f:0 = muladd challenge:0 const:0 cm:0"]),
        ask("dims-largest-second", &["first f:0 = muladd const:0 eval:0 cm:0"]),
        ask("dims-largest-third", &["first f:0 = muladd const:0 number:5 Z:0"]),
        ask("dims-of-sub-and-mul", &["first f:0 = sub cm:0 q:1", "i f:1 = mul q:1 q:0"]),
        ask("dims-of-trees", &["first f:0 = muladd tree1:0@d1 tree2:0@d2 tree4:9@d5"]),
        ask("dims-tree-of-dimension-0", &["first f:0 = copy tree4:0"]),
        ask("dims-fields-stay", &["first f:7@p1,t2,e3 = copy const:9'@d9,p4,t5,e6"]),
    ]
}

/// A pass knows a temporary by its number, primed or not.
fn temporaries() -> Vec<Case> {
    vec![
        ask(
            "dims-primed-and-not",
            Walk::Dims,
            &["first tmp:0' = copy cm:0", "i tmp:1 = copy tmp:0"],
        ),
        ask("dims-read-in-its-own-step", Walk::Dims, &["first tmp:0 = add cm:0 tmp:0"]),
        ask("dims-unwritten-in-i", Walk::Dims, &["first tmp:1 = copy cm:0", "i f:0 = copy tmp:0"]),
        ask("dims-exp-is-not-read", Walk::Dims, &["first exp:0 = copy cm:0", "i f:0 = copy exp:0"]),
        ask("fixed-exp-is-read", FIX_DIMS_2NS, &["first exp:0 = copy cm:0", "i f:0 = copy exp:0"]),
        ask(
            "fixed-exp-unwritten",
            FIX_DIMS_2NS,
            &["first exp:0 = copy cm:0", "i f:0 = copy exp:0'"],
        ),
    ]
}

fn walks_in_order() -> Vec<Case> {
    let refused = ["first f:0 = copy f:1", "last Z:0 = copy cm:0"];
    vec![
        ask(
            "dimensions-after-fixing",
            FIX_DIMS_2NS,
            &["first f:0 = copy f:1", "last f:0 = copy cm:4"],
        ),
        ask(
            "dimensions-after-the-query-walk",
            Walk::QueryDims,
            &["first f:0 = copy f:1", "last f:0 = copy cm:4"],
        ),
        ask("query-after-fixing", Walk::Query, &refused),
        ask("query-of-an-intermediate", Walk::QueryDims, &["first tmp:0 = add exp:2 cm:2'"]),
        ask(
            "query-keeps-other-kinds",
            Walk::Query,
            &["counter 3", "first exp:3 = add q:0 Zi:0", "i tmp:1 = copy number:-9"],
        ),
    ]
}

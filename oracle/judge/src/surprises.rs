//! Chosen cases: document 01's examples, the places where the original surprises (g01 to g15, by
//! the numbers of the notes on the original), and edges of literals, ids and dependencies.

use crate::case::{
    add, addc, asking, cm, constant, exp, fused, leaf, mul, muladd, mulc, neg, number, plain,
    primed, request, sub, Case, Tree, BUILD,
};
use crate::kinds::Kind;
use crate::literal::Literal;
use crate::pool::Flags;
use crate::script::Command;

const NONE: Flags = Flags::NONE;
const KEEP: Flags = Flags::KEEP;
const KEEP2NS: Flags = Flags::KEEP2NS;
const ID_Q: Flags = Flags::ID_Q;

/// The flags, each alone, with a word for names.
const EACH_FLAG: [(Flags, &str); 3] = [(KEEP, "keep"), (KEEP2NS, "keep2ns"), (ID_Q, "idq")];

/// Document 01's two whole runs and its other examples of generation.
pub fn documents() -> Vec<Case> {
    let run = || [(add(mul(cm(0), cm(1)), constant(0).next()), NONE)];
    let products = add(mul(cm(0), cm(1)), mul(cm(2), cm(3)));
    vec![
        Case::of("doc-run-fused", &run(), &[fused(0), BUILD]),
        Case::of("doc-run", &run(), &[plain(0), BUILD]),
        Case::of("doc-two-products-fused", &[(products, NONE)], &[fused(0), BUILD]),
        Case::of("doc-neg", &[(neg(cm(0)), NONE)], &[plain(0), BUILD]),
        Case::of("doc-bare-cm", &[(cm(0), NONE)], &[plain(0), BUILD]),
    ]
}

pub fn surprises() -> Vec<Case> {
    [
        g01_refusals(),
        g02_blocks_skipped_by_number(),
        g03_only_blocks_since_the_last_build(),
        g04_reading_what_is_skipped(),
        g05_marks_after_a_build(),
        g06_marked_dependencies(),
        g07_marks_hide_a_double_prime(),
        g08_results(),
        g09_results_that_fail_later(),
        g10_no_result_after_a_build(),
        g11_dependencies_of_the_unfused_tree(),
        g12_the_first_form_stays(),
        g13_what_fuses(),
        g14_next_on_operations(),
        g15_flags_by_presence(),
    ]
    .concat()
}

fn sum(a: u16, b: u16) -> Tree {
    add(exp(a), exp(b))
}

fn g01_refusals() -> Vec<Case> {
    let pool = || [(mul(cm(0), cm(1)), NONE), (cm(2).next(), NONE), (sum(0, 1), NONE)];
    let through_next = [(cm(0).next(), NONE), (exp(0).next(), NONE), (exp(1), NONE)];
    let beside = [(mul(cm(0), exp(1).next()), NONE), (cm(1), NONE)];
    vec![
        Case::of("g01-double-prime", &pool(), &[primed(2)])
            .note("the original leaves block e0' behind"),
        Case::of("g01-double-prime-plain", &pool(), &[plain(2), BUILD])
            .note("the same pool, not primed: nothing is wrong"),
        Case::of("g01-double-prime-later", &pool(), &[plain(2), plain(0), primed(2)]),
        Case::of("g01-double-prime-exp", &beside, &[plain(0), primed(0)]),
        Case::of("g01-double-prime-through-next", &through_next, &[plain(0), plain(2)])
            .note("a plain request: e1 asks for e0', whose leaf has next"),
        Case::of("g01-primed-result", &pool(), &[asking(0, true, Kind::F, 0)]),
        Case::of(
            "g01-primed-result-after-plain",
            &pool(),
            &[plain(0), asking(0, true, Kind::Q, 1)],
        )
        .note("the plain mark does not help"),
        Case::of("g01-double-prime-before-result", &pool(), &[asking(2, true, Kind::F, 0)])
            .note("5 comes before 7"),
        Case::of("g01-no-expression", &pool(), &[plain(3)]),
        Case::of("g01-no-expression-late", &pool(), &[plain(0), BUILD, primed(65535)]),
        Case::of("g01-no-expression-result", &pool(), &[asking(3, true, Kind::F, 0)]),
    ]
}

fn g02_blocks_skipped_by_number() -> Vec<Case> {
    let pool =
        |flags| [(mul(cm(0), cm(1)), NONE), (add(cm(2), cm(3)), NONE), (sub(cm(4), cm(5)), flags)];
    let first = |a, b| [(mul(cm(0), cm(1)), a), (neg(cm(2)), b)];
    let (both, swapped) = ([plain(2), primed(2)], [primed(2), plain(2)]);
    let with = |head: &[Command], tail: &[Command]| [head, tail, &[BUILD]].concat();
    let mut cases = vec![
        Case::of("g02-unrelated-block", &pool(KEEP), &with(&both, &[plain(0)]))
            .note("e2 stands plain and primed, so block 2 is skipped, and that is e0's"),
        Case::of("g02-primed-block", &pool(KEEP), &with(&both, &[primed(0)]))
            .note("block 2 is primed: it stays in i and goes in last"),
        Case::of("g02-primed-first", &pool(KEEP), &with(&swapped, &[plain(1), plain(0)])),
        Case::of("g02-own-block", &pool(KEEP), &with(&[plain(0), plain(1)], &both)),
        Case::of("g02-own-primed-block", &pool(KEEP), &with(&[plain(0), plain(1)], &swapped)),
        Case::of("g02-no-such-block", &pool(KEEP), &with(&both, &[])).note("there is no block 2"),
        Case::of("g02-no-flag", &pool(NONE), &with(&both, &[plain(0)])),
        Case::of("g02-plain-only", &pool(KEEP), &with(&[plain(2)], &[plain(0), plain(1)])),
        Case::of("g02-primed-only", &pool(KEEP), &with(&[primed(2)], &[plain(0), plain(1)])),
        Case::of(
            "g02-block-with-results",
            &pool(KEEP),
            &with(&both, &[asking(0, false, Kind::F, 0), asking(0, false, Kind::Q, 7), plain(1)]),
        )
        .note("a skipped block takes its result copies with it"),
    ];
    let four = [plain(0), primed(0), plain(1), primed(1), BUILD];
    for (a, b, name) in [(KEEP, NONE, "e0"), (NONE, KEEP, "e1"), (ID_Q, KEEP2NS, "both")] {
        cases.push(Case::of(&format!("g02-four-blocks-{}", name), &first(a, b), &four));
    }
    cases
}

fn g03_only_blocks_since_the_last_build() -> Vec<Case> {
    let pool = [(mul(cm(0), cm(1)), KEEP), (cm(2), NONE)];
    vec![
        Case::of("g03-build-between", &pool, &[plain(0), BUILD, primed(0), BUILD]),
        Case::of("g03-no-build-between", &pool, &[plain(0), primed(0), BUILD, BUILD])
            .note("a second build has nothing to give"),
    ]
}

fn g04_reading_what_is_skipped() -> Vec<Case> {
    let reader = |kept: u16| add(exp(kept), exp(kept).next());
    let later = [
        (cm(0), NONE),
        (cm(1), NONE),
        (mul(cm(2), cm(3)), KEEP),
        (reader(2), NONE),
        (exp(3), NONE),
    ];
    let own = [(mul(cm(2), cm(3)), KEEP), (reader(0), NONE)];
    vec![
        Case::of("g04-reads-a-skipped-block", &later, &[plain(4), BUILD])
            .note("e3 is block 2, so i and last copy exp3, which no step of theirs writes"),
        Case::of("g04-reads-its-own-skipped-block", &own, &[plain(1), BUILD]),
    ]
}

fn g05_marks_after_a_build() -> Vec<Case> {
    let four = [(cm(0), KEEP), (cm(1), KEEP2NS), (cm(2), ID_Q), (cm(3), NONE)];
    let eight: Vec<(Tree, Flags)> =
        (0..8).map(|byte| (cm(byte), Flags::from_byte(byte as u8).expect("flags"))).collect();
    let all: Vec<Command> = (0..8).map(plain).chain([BUILD]).chain((0..8).map(primed)).collect();
    vec![
        Case::of("g05-marks-of-each-flag", &four, &[BUILD])
            .note("keep2ns alone does not protect from the mark"),
        Case::of("g05-marks-of-all-flags", &eight, &[BUILD]),
        Case::of("g05-marks-and-requests", &eight, &[&all[..], &[BUILD]].concat()),
    ]
}

fn g06_marked_dependencies() -> Vec<Case> {
    let pool = || [(mul(cm(0), cm(1)), NONE), (neg(cm(2)), NONE), (sum(0, 1), KEEP)];
    vec![
        Case::of("g06-empty-build-first", &pool(), &[BUILD, plain(2), BUILD])
            .note("only the sum is emitted"),
        Case::of("g06-empty-build-first-primed", &pool(), &[BUILD, primed(2), BUILD]),
        Case::of("g06-no-build-first", &pool(), &[plain(2), BUILD]),
    ]
}

fn g07_marks_hide_a_double_prime() -> Vec<Case> {
    let pool = |flags| [(mul(cm(0), cm(1)), NONE), (cm(2).next(), flags), (sum(0, 1), KEEP)];
    vec![
        Case::of("g07-hidden", &pool(NONE), &[BUILD, primed(2), BUILD])
            .note("e1' is marked by the build, so its leaf is never looked at"),
        Case::of("g07-not-hidden", &pool(NONE), &[primed(2)]),
        Case::of("g07-protected", &pool(ID_Q), &[BUILD, primed(2)])
            .note("a flagged e1 is not marked, so it is evaluated"),
    ]
}

fn g08_results() -> Vec<Case> {
    let product = [(mul(cm(0), cm(1)), NONE), (cm(2), NONE)];
    let every = |prime| Kind::results().map(move |kind| asking(0, prime, kind, 9)).chain([BUILD]);
    let every_primed: Vec<Command> = [primed(0)].into_iter().chain(every(true)).collect();
    let every_plain: Vec<Command> = every(false).collect();
    let f_then_q = [asking(0, false, Kind::F, 0), asking(0, false, Kind::Q, 7), BUILD];
    vec![
        Case::of("g08-chain", &product, &f_then_q),
        Case::of("g08-chain-after-request", &product, &[&[plain(0)], &f_then_q[..]].concat()),
        Case::of("g08-every-kind", &product, &every_plain),
        Case::of("g08-every-kind-primed", &product, &every_primed)
            .note("a primed block may be copied; only a fresh primed result is refused"),
        Case::of("g08-same-twice", &product, &[f_then_q[0], f_then_q[0], BUILD]),
        Case::of(
            "g08-leaf-root",
            &product,
            &[asking(1, false, Kind::F, 65535), plain(0), asking(1, false, Kind::TMP, 0), BUILD],
        ),
        Case::of(
            "g08-earlier-block",
            &product,
            &[plain(0), plain(1), primed(1), asking(0, false, Kind::EXP, 1), BUILD],
        )
        .note("the copy is put at the end of its block, not of the list"),
        Case::of(
            "g08-plain-and-primed",
            &product,
            &[
                primed(0),
                plain(0),
                asking(0, true, Kind::F, 1),
                asking(0, false, Kind::F, 2),
                BUILD,
            ],
        ),
    ]
}

fn g09_results_that_fail_later() -> Vec<Case> {
    let pool = [(mul(cm(0), cm(1)), NONE)];
    let through = |kind| [asking(0, false, kind, 0), asking(0, false, Kind::Q, 0), BUILD];
    vec![
        Case::of("g09-f-as-source", &pool, &through(Kind::F))
            .note("accepted here; the dimension pass has no rule for f as a source"),
        Case::of("g09-tmpexp-as-source", &pool, &through(Kind::TMP_EXP)),
        Case::of("g09-tree-as-source", &pool, &through(Kind::TREE1)),
    ]
}

fn g10_no_result_after_a_build() -> Vec<Case> {
    let pool = || [(mul(cm(0), cm(1)), NONE), (neg(cm(2)), KEEP), (exp(1), NONE)];
    let ask = |expression, prime| asking(expression, prime, Kind::F, 0);
    vec![
        Case::of("g10-just-generated", &pool(), &[plain(0), BUILD, ask(0, false)]),
        Case::of("g10-just-generated-keep", &pool(), &[plain(1), BUILD, ask(1, false)]),
        Case::of("g10-never-generated", &pool(), &[BUILD, ask(0, false)]),
        Case::of("g10-never-generated-primed", &pool(), &[BUILD, ask(0, true)])
            .note("marked, so 8 and not 7"),
        Case::of("g10-never-generated-keep", &pool(), &[BUILD, ask(1, false), BUILD])
            .note("not marked, so it is generated"),
        Case::of("g10-never-generated-keep-primed", &pool(), &[BUILD, ask(1, true)]),
        Case::of("g10-as-dependency", &pool(), &[plain(2), ask(1, false), BUILD, ask(2, false)]),
    ]
}

fn g11_dependencies_of_the_unfused_tree() -> Vec<Case> {
    let leaves = || [(cm(0), NONE), (cm(1), NONE), (cm(2), NONE)];
    let with = |tree| [&leaves()[..], &[(tree, NONE)]].concat();
    let second = || add(exp(0), mul(exp(1), exp(2)));
    let first = || add(mul(exp(2), exp(1)), exp(0));
    vec![
        Case::of("g11-second-is-mul", &with(second()), &[fused(3), BUILD])
            .note("blocks e0, e1, e2; then muladd exp1 exp2 exp0"),
        Case::of("g11-second-is-mul-primed", &with(second()), &[request(3, true, true), BUILD]),
        Case::of("g11-second-is-mul-not-fused", &with(second()), &[plain(3), BUILD]),
        Case::of("g11-first-is-mul", &with(first()), &[fused(3), BUILD]),
    ]
}

fn g12_the_first_form_stays() -> Vec<Case> {
    let fusible = || add(mul(cm(0), cm(1)), cm(2));
    let pool = || [(fusible(), NONE), (add(mul(exp(0), cm(3)), cm(4)), NONE)];
    vec![
        Case::of("g12-dependency-first", &pool(), &[fused(1), fused(0), BUILD])
            .note("a dependency is never fused, nor is it afterwards"),
        Case::of("g12-fused-first", &pool(), &[fused(0), plain(1), BUILD]),
        Case::of("g12-plain-first", &pool(), &[plain(0), fused(0), BUILD]),
        Case::of("g12-each-prime-its-own", &pool(), &[plain(0), request(0, true, true), BUILD]),
    ]
}

fn g13_what_fuses() -> Vec<Case> {
    let inner = || add(mul(cm(0), cm(1)), cm(2));
    let case = |name: &str, tree| Case::of(name, &[(tree, NONE)], &[fused(0), BUILD]);
    vec![
        case("g13-in-muladd", muladd(inner(), neg(inner()), inner())),
        case("g13-in-mulc", mulc(inner(), 3)),
        case("g13-in-neg", neg(inner())),
        case("g13-in-sub", sub(inner(), inner())),
        case("g13-in-fused-operands", add(mul(inner(), neg(inner())), mulc(inner(), 5))),
        case("g13-in-fused-operands-second", add(addc(inner(), 5), mul(inner(), inner()))),
        case("g13-mulc-is-no-mul", add(mulc(cm(0), 3), cm(1))),
        case("g13-mulc-then-mul", add(mulc(cm(0), 3), mul(cm(1), cm(2)))),
        case("g13-addc-of-mul", addc(mul(cm(0), cm(1)), 7)),
        case("g13-sub-of-mul", sub(mul(cm(0), cm(1)), mul(cm(2), cm(3)))),
        case("g13-muladd-is-no-mul", add(muladd(cm(0), cm(1), cm(2)), cm(3))),
        case("g13-chain", add(add(mul(cm(0), cm(1)), mul(cm(2), cm(3))), mul(cm(4), cm(5)))),
        case("g13-mul-of-mul", add(mul(mul(cm(0), cm(1)), mul(cm(2), cm(3))), cm(4))),
    ]
}

fn g14_next_on_operations() -> Vec<Case> {
    let tree = || add(mul(cm(0), neg(cm(1)).next()).next(), mulc(cm(2), 3).next()).next();
    let pool = [(tree(), NONE), (exp(0), NONE)];
    let all = muladd(addc(cm(0), 1).next(), sub(cm(1), cm(2)).next(), cm(3).next()).next();
    vec![
        Case::of("g14-plain", &pool, &[plain(1), BUILD]),
        Case::of("g14-primed", &pool, &[primed(1), BUILD]),
        Case::of("g14-fused", &pool, &[fused(0), request(0, true, true), BUILD]),
        Case::of("g14-beside-a-leaf-with-next", &[(all, KEEP)], &[plain(0), BUILD, primed(0)])
            .note("the leaf's own next counts"),
    ]
}

fn g15_flags_by_presence() -> Vec<Case> {
    let commands = [plain(0), primed(0), BUILD, plain(0), primed(0), BUILD];
    let case = |(flags, word): (Flags, &str)| {
        Case::of(&format!("g15-{}", word), &[(mul(cm(0), cm(1)), flags)], &commands)
    };
    EACH_FLAG.into_iter().chain([(NONE, "none")]).map(case).collect()
}

/// Literals and ids at their edges, dependencies, and the counter.
pub fn edges() -> Vec<Case> {
    [literals(), ids(), dependencies(), counters()].concat()
}

fn literals() -> Vec<Case> {
    let edges = [0, 1, i64::MAX as u64, 1 << 63, u64::MAX];
    let numbers: Vec<(Tree, Flags)> = [false, true]
        .into_iter()
        .flat_map(|minus| edges.into_iter().filter_map(move |edge| Literal::new(minus, edge)))
        .map(|literal| (number(literal), NONE))
        .collect();
    let constants = [0, 1, -1, i64::MAX, i64::MIN];
    let each = |make: fn(Tree, i64) -> Tree| constants.map(|value| (make(cm(0), value), NONE));
    let all = |pool: &[(Tree, Flags)]| -> Vec<Command> {
        (0..pool.len() as u16).map(plain).chain([BUILD]).collect()
    };
    vec![
        Case::of("edge-numbers", &numbers, &all(&numbers)),
        Case::of("edge-addc", &each(addc), &all(&each(addc))),
        Case::of("edge-mulc", &each(mulc), &all(&each(mulc))),
        Case::of(
            "edge-literals-primed",
            &[(add(number(-5), addc(mulc(constant(0), i64::MIN), -1)), NONE)],
            &[primed(0), BUILD],
        ),
    ]
}

fn ids() -> Vec<Case> {
    let last = u16::MAX;
    let kinds = Kind::LEAVES.into_iter().filter(|&kind| kind.has_id() && kind != Kind::EXP);
    let pool: Vec<(Tree, Flags)> =
        kinds.map(|kind| (add(leaf(kind, 0), leaf(kind, last)), NONE)).collect();
    let requests = (0..pool.len() as u16).flat_map(|e| [plain(e), primed(e)]);
    let many: Vec<(Tree, Flags)> =
        (0..40).map(|e| (cm(e), NONE)).chain([(sum(39, 0), NONE)]).collect();
    vec![
        Case::of("edge-ids", &pool, &requests.chain([BUILD]).collect::<Vec<_>>()),
        Case::of("edge-many-expressions", &many, &[plain(40), primed(20), BUILD]),
        Case::of("edge-no-expression", &[], &[BUILD, plain(0)]),
    ]
}

fn dependencies() -> Vec<Case> {
    let diamond =
        [(sum(1, 2), NONE), (neg(exp(3)), NONE), (mul(exp(3), cm(0)), NONE), (cm(1), NONE)];
    let nexts = [(cm(0), NONE), (add(exp(0).next(), exp(0)), NONE), (mul(exp(1), exp(0)), NONE)];
    let thrice = [
        (addc(cm(0), 1), NONE),
        (addc(cm(1), 2), NONE),
        (addc(cm(2), 3), NONE),
        (muladd(exp(2), exp(0), exp(1)), NONE),
    ];
    let chain: Vec<(Tree, Flags)> = [(cm(0), NONE)]
        .into_iter()
        .chain((0..20).map(|e| (add(exp(e), mul(cm(1), exp(e))), NONE)))
        .collect();
    vec![
        Case::of("edge-diamond", &diamond, &[plain(0), BUILD]),
        Case::of("edge-diamond-both", &diamond, &[primed(2), plain(0), primed(0), BUILD]),
        Case::of("edge-next-of-expression", &nexts, &[plain(2), BUILD]),
        Case::of("edge-next-of-expression-primed", &nexts, &[primed(0), primed(2)]),
        Case::of("edge-left-to-right", &thrice, &[fused(3), BUILD]),
        Case::of(
            "edge-leaf-to-leaf",
            &[(exp(1), NONE), (exp(2), NONE), (cm(0), NONE)],
            &[plain(0), primed(0), BUILD],
        ),
        Case::of("edge-long-chain", &chain, &[fused(20), BUILD]),
        Case::of(
            "edge-same-leaf-twice",
            &[(cm(0), NONE), (mul(exp(0), exp(0)), NONE)],
            &[plain(1), BUILD],
        ),
    ]
}

fn counters() -> Vec<Case> {
    let deep = |a| mul(add(cm(a), cm(1)), sub(cm(2), neg(cm(3))));
    let pool = [(deep(0), KEEP), (deep(5), KEEP), (exp(0), KEEP), (cm(0), NONE)];
    vec![
        Case::of("edge-counter-goes-on", &pool, &[plain(0), BUILD, plain(1), BUILD, BUILD])
            .note("a build does not start the numbering of temporaries again"),
        Case::of("edge-counter-given-back", &pool, &[plain(0), plain(3), primed(1), BUILD])
            .note("a root gives its temporary back, and the next block begins with that number"),
        Case::of(
            "edge-asked-again",
            &pool,
            &[plain(2), plain(0), plain(2), BUILD, plain(2), BUILD],
        ),
    ]
}

//! Chosen questions: document 01's examples of sections, and the places where the original
//! surprises (m01 to m22, by the numbers of the notes on the original; the tests of this module have
//! m13, m18, m23 and m25, which no question can show whole).

use crate::mapped::Record;
use crate::plan::Plan;
use crate::question::Question;
use crate::vectors::Case;
use crate::walks::{Domain, Walk};
use crate::written::{exp_dims, intermediate, map, pu, ratio, small, walk, with_columns};
use judge::case::{add, cm, constant, exp, leaf, mul, mulc, Tree};
use judge::kinds::Kind;

const FIX_N: Walk = Walk::Fix(Domain::N);
const FIX_2NS: Walk = Walk::Fix(Domain::TwoNs);
const FIX_DIMS_N: Walk = Walk::FixDims(Domain::N);
const FIX_DIMS_2NS: Walk = Walk::FixDims(Domain::TwoNs);

const CM1_N: usize = 0;
const CM2_N: usize = 1;

/// Document 01's examples of sections.
pub fn documents() -> Vec<Case> {
    let four = of_section(CM1_N, &[3, 1, 2, 1], 0);
    let two_sections = [&four[..], &of_section(CM2_N, &[2], 0)].concat();
    vec![
        Case::new("doc-dimensions-3-1-2-1", Question::Sections(four)),
        Case::new("doc-one-of-dimension-2", Question::Sections(of_section(CM1_N, &[2], 0))),
        Case::new("doc-no-records", Question::Sections(Vec::new())),
        Case::new("doc-two-sections", Question::Sections(two_sections)),
    ]
}

fn of_section(section: usize, dimensions: &[usize], position: usize) -> Vec<Record> {
    dimensions.iter().map(|&dimension| Record { section, dimension, position }).collect()
}

pub fn surprises() -> Vec<Case> {
    [
        m01_intermediates_over_products(),
        m02_two_dimensions_of_a_column(),
        m03_tmp_exp_has_its_expressions_dimension(),
        m04_q_reads_a_record(),
        m05_two_tables_of_q(),
        m06_fixing_keeps_the_prime(),
        m07_an_intermediate_has_no_p(),
        m08_new_temporaries(),
        m09_temporaries_of_a_segment(),
        m10_kinds_with_a_rule(),
        m11_any_expression_number(),
        m12_the_query_walk(),
        m13_fixing_before_dimensions(),
        m14_the_verifiers_code(),
        m16_lookups_see_earlier_columns(),
        m18_numerators_beyond(),
        m21_sources_beyond(),
        m22_other_dimensions(),
    ]
    .concat()
}

/// e0 = cm0·cm1, of dimension 1; e1 a challenge, of 3; e2 the first column of cm3; e3 the second.
fn trees() -> Vec<Tree> {
    vec![mul(cm(0), cm(1)), leaf(Kind::CHALLENGE, 0), cm(2), cm(3)]
}

/// The first two of them.
fn two() -> Vec<Tree> {
    trees()[..2].to_vec()
}

/// Two columns of cm1, a product and an intermediate of dimension 1.
fn a_product_and_an_intermediate() -> Plan {
    let plan = Plan {
        pe: vec![ratio(1, 1)],
        intermediates: vec![intermediate(0, 3)],
        q_deg: 1,
        ..small()
    };
    with_columns(2, plan)
}

fn m01_intermediates_over_products() -> Vec<Case> {
    let plan = a_product_and_an_intermediate();
    let of = |c_exp| map(&trees(), &Plan { c_exp, ..plan.clone() });
    let two = Plan { intermediates: vec![intermediate(0, 3), intermediate(2, 4)], ..plan.clone() };
    let two = with_columns(2, two);
    vec![
        Case::new("m01-over-a-product", of(0))
            .note("cm_dims: the intermediate's dimension stands in the product's place"),
        Case::new("m01-q-reads-a-product", of(2))
            .note("cm2 is the product's column, of dimension 3; q_dim is 1"),
        Case::new("m01-q-reads-an-intermediate", of(3))
            .note("cm3 is the intermediate's column; nothing was written at its place: 12"),
        Case::new("m01-later-intermediate", map(&trees(), &two))
            .note("the second intermediate is the product's column, and has dimension 1"),
    ]
}

fn m02_two_dimensions_of_a_column() -> Vec<Case> {
    let plan = a_product_and_an_intermediate();
    let list = ["first tmp:0 = copy cm:2", "first tmp:1 = copy cm:3"];
    vec![
        Case::new("m02-in-a-list", walk(&trees(), &plan, FIX_DIMS_N, &list)),
        Case::new("m02-in-expressions", exp_dims(&trees(), &plan))
            .note("e2 = cm2 and e3 = cm3, of which records have the dimensions 3 and 1"),
    ]
}

fn m03_tmp_exp_has_its_expressions_dimension() -> Vec<Case> {
    let plan = with_columns(2, Plan { ci: vec![ratio(0, 1)], ..small() });
    let list = ["first exp:0 = copy cm:0", "first exp:1 = add exp:0 exp:1'"];
    let zero = with_columns(
        2,
        Plan {
            ci: vec![ratio(3, 3)],
            intermediates: vec![intermediate(0, 3)],
            q_deg: 1,
            ..small()
        },
    );
    vec![
        Case::new("m03-columns", map(&two(), &plan)),
        Case::new("m03-list", walk(&two(), &plan, FIX_N, &list)),
        Case::new("m03-list-with-dimensions", walk(&two(), &plan, FIX_DIMS_N, &list)),
        Case::new(
            "m03-dimension-0",
            walk(&trees(), &zero, FIX_DIMS_N, &["first tmp:0 = copy exp:3"]),
        )
        .note("e3 = cm3, whose place in cm_dims nothing was written at: as a source 12"),
        Case::new("m03-fixed-to-0", walk(&trees(), &zero, FIX_N, &["first tmp:0 = copy exp:3"])),
    ]
}

/// Two columns of cm1 and a lookup of dimension 3. Records 4 and 5 are of its column h1.
fn a_lookup(qs: Vec<u16>) -> Plan {
    with_columns(2, Plan { pu: vec![pu(0, 1, 0, 1)], qs, q_deg: 1, ..small() })
}

fn m04_q_reads_a_record() -> Vec<Case> {
    let list = ["first tmp:0 = copy q:0", "i tmp:1 = copy q:1", "last tmp:2 = copy q:2'"];
    let ask = |name: &str, qs, kind| Case::new(name, walk(&trees(), &a_lookup(qs), kind, &list));
    let records = map(&trees(), &a_lookup(Vec::new()));
    vec![
        Case::new("m04-records", records),
        ask("m04-q-of-records", vec![0, 4, 14], Walk::Dims),
        ask("m04-the-last-record", vec![0, 4, 15], FIX_DIMS_2NS),
        ask("m04-beyond-the-records", vec![0, 4, 16], Walk::Dims),
        ask("m04-beyond-qs", vec![0, 4], Walk::Dims),
    ]
}

fn m05_two_tables_of_q() -> Vec<Case> {
    let trees = [leaf(Kind::Q, 0), cm(0)];
    let plan = |qs, q2exp| with_columns(1, Plan { qs, q2exp, ..small() });
    let list = ["first tmp:0 = copy q:0"];
    vec![
        Case::new("m05-leaf", map(&trees, &plan(vec![], vec![1]))),
        Case::new("m05-leaf-not-there", map(&trees, &plan(vec![0], vec![]))),
        Case::new("m05-list", walk(&trees, &plan(vec![0], vec![1]), Walk::Dims, &list)),
        Case::new("m05-list-not-there", walk(&trees, &plan(vec![], vec![1]), Walk::Dims, &list)),
    ]
}

fn m06_fixing_keeps_the_prime() -> Vec<Case> {
    let plan = with_columns(
        2,
        Plan { pe: vec![ratio(1, 1)], intermediates: vec![intermediate(0, 3)], ..small() },
    );
    let list = [
        "counter 6",
        "first exp:2' = add exp:1' exp:0'",
        "first exp:1' = copy exp:2'",
        "first exp:0' = copy exp:2",
    ];
    vec![
        Case::new("m06-domain-n", walk(&trees(), &plan, FIX_N, &list)),
        Case::new("m06-domain-2ns", walk(&trees(), &plan, FIX_2NS, &list)),
    ]
}

fn m07_an_intermediate_has_no_p() -> Vec<Case> {
    let list = ["first exp:0 = add exp:0 cm:3", "i cm:3@p9 = copy exp:0@p9"];
    let one = a_product_and_an_intermediate();
    let crossed = vec![intermediate(0, 4), intermediate(1, 3)];
    let two = with_columns(2, Plan { intermediates: crossed, ..one.clone() });
    let both = ["first exp:1' = add exp:0 exp:1", "last exp:0 = copy exp:1"];
    let ask =
        |name: &str, plan, kind, lines: &[&str]| Case::new(name, walk(&trees(), plan, kind, lines));
    vec![
        ask("m07-domain-n", &one, FIX_N, &list).note("a p that stood there before stays"),
        ask("m07-domain-2ns", &one, FIX_2NS, &list),
        ask("m07-two-in-domain-n", &two, FIX_N, &both),
        ask("m07-two-in-domain-2ns", &two, FIX_2NS, &both),
        ask("m07-two-in-the-query-code", &two, Walk::Query, &both),
    ]
}

fn m08_new_temporaries() -> Vec<Case> {
    let plan = with_columns(2, small());
    let list = [
        "counter 4",
        "first exp:0 = add exp:1 exp:1'",
        "i exp:1 = copy exp:0",
        "last exp:2 = copy exp:0'",
    ];
    vec![
        Case::new("m08-sources-first", walk(&two(), &plan, FIX_N, &list[..2])),
        Case::new("m08-one-map-for-three-lists", walk(&two(), &plan, FIX_2NS, &list)),
    ]
}

fn m09_temporaries_of_a_segment() -> Vec<Case> {
    let plan = with_columns(2, small());
    let ask = |name: &str, lines: &[&str]| Case::new(name, walk(&two(), &plan, Walk::Dims, lines));
    vec![
        ask("m09-written-in-first", &["first tmp:0 = copy cm:0", "last tmp:1 = copy tmp:0"]),
        ask("m09-written-later", &["first tmp:1 = copy tmp:0", "last tmp:0 = copy cm:0"]),
        ask(
            "m09-written-anew",
            &["first tmp:0 = copy cm:0", "i tmp:0 = copy challenge:0", "last tmp:1 = copy tmp:0"],
        ),
    ]
}

/// Every kind as a source and as a destination, of each pass.
fn m10_kinds_with_a_rule() -> Vec<Case> {
    let plan = with_columns(2, Plan { qs: vec![0], ..small() });
    let mut cases = Vec::new();
    for kind in Kind::references() {
        let reference = match kind {
            Kind::NUMBER => "number:7".to_string(),
            _ => format!("{}:0@d2", kind.word()),
        };
        let source = format!("first f:0 = add cm:0 {}", reference);
        let destination = format!("first {} = add cm:0 const:0", reference);
        for (place, line) in [("source", source), ("destination", destination)] {
            for (pass, kind_of_walk) in [("fix", FIX_2NS), ("dims", Walk::Dims)] {
                let name = format!("m10-{}-{}-{}", pass, place, kind.word());
                let question = walk(&two(), &plan, kind_of_walk, &[&line]);
                cases.push(Case::new(&name, question));
            }
        }
    }
    cases
}

fn m11_any_expression_number() -> Vec<Case> {
    let plan = with_columns(1, small());
    let list = ["counter 1", "first exp:500 = copy exp:65535'"];
    let ask = |name: &str, kind| Case::new(name, walk(&[cm(0)], &plan, kind, &list));
    vec![ask("m11-domain-n", FIX_N), ask("m11-domain-2ns", FIX_2NS)]
}

fn m12_the_query_walk() -> Vec<Case> {
    let lookup = with_columns(
        2,
        Plan {
            pu: vec![pu(0, 0, 0, 1)],
            intermediates: vec![intermediate(0, 5)],
            q_deg: 1,
            ..small()
        },
    );
    let ask = |name: &str, plan: &Plan, kind, lines: &[&str]| {
        Case::new(name, walk(&trees(), plan, kind, lines))
    };
    let all = [
        "first tmp:0 = muladd cm:0 cm:1' cm:2",
        "i tmp:1 = muladd cm:3 cm:4 cm:5",
        "last tmp:2 = add cm:6 exp:0'",
    ];
    let lost = Plan { intermediates: vec![intermediate(0, 7)], ..lookup.clone() };
    vec![
        ask("m12-sources", &lookup, Walk::Query, &all),
        ask("m12-sources-with-dimensions", &lookup, Walk::QueryDims, &all),
        ask("m12-destination", &lookup, Walk::Query, &["first cm:1 = copy const:0"]),
        ask(
            "m12-destination-has-no-rule",
            &lookup,
            Walk::QueryDims,
            &["first cm:1 = copy const:0"],
        ),
        ask("m12-no-such-column", &lookup, Walk::Query, &["first tmp:0 = copy cm:7"]),
        ask("m12-intermediate-without-column", &lost, Walk::Query, &["first tmp:0 = copy exp:0"]),
        ask("m12-fixed-without-column", &lost, FIX_2NS, &["first tmp:0 = copy exp:0"]),
        ask("m12-dimension-without-column", &lost, FIX_DIMS_2NS, &["first tmp:0 = copy exp:0"]),
    ]
}

fn m13_fixing_before_dimensions() -> Vec<Case> {
    let plan = with_columns(2, small());
    let list = ["first tmp:0 = copy tmp:9", "last tmp:1 = copy cm:2"];
    let ask = |name: &str, kind, lines: &[&str]| Case::new(name, walk(&two(), &plan, kind, lines));
    vec![
        ask("m13-fixed", FIX_N, &list[..1]),
        ask("m13-refused-by-dimensions", FIX_DIMS_N, &list[..1]),
        ask("m13-refused-by-fixing", FIX_DIMS_N, &list).note(
            "the first list would be refused with 10 by the dimension pass, which comes later",
        ),
    ]
}

fn m14_the_verifiers_code() -> Vec<Case> {
    let plan = with_columns(2, small());
    let list = [
        "first tmp:0 = copy x:0",
        "i tmp:1 = copy xDivXSubXi:0",
        "last exp:1' = add tmp:0 xDivXSubWXi:0",
    ];
    let ask = |name: &str, kind, lines: &[&str]| Case::new(name, walk(&two(), &plan, kind, lines));
    vec![
        ask("m14-x-dimension-3", Walk::Dims, &list),
        ask("m14-x-dimension-1", FIX_DIMS_2NS, &list),
        ask("m14-query-x-dimension-1", Walk::QueryDims, &list),
        ask("m14-first-list-only", Walk::DimsFirst, &list),
        ask(
            "m14-other-lists-unseen",
            Walk::DimsFirst,
            &["i tmp:1 = copy tmp:0", "last Z:0 = copy f:0"],
        ),
        Case::new(
            "m14-in-expressions",
            exp_dims(
                &[leaf(Kind::X, 0), leaf(Kind::X_DIV_X_SUB_XI, 0), leaf(Kind::X_DIV_X_SUB_WXI, 0)],
                &small(),
            ),
        ),
    ]
}

fn m16_lookups_see_earlier_columns() -> Vec<Case> {
    // The lookups' columns are cm1 and cm2, cm3 and cm4; their products' cm5 and cm6.
    let of = |name: &str, tree: Tree, lookups: [u16; 2]| {
        let trees = [cm(0), tree, add(cm(0), leaf(Kind::CHALLENGE, 0))];
        let pu = lookups.iter().map(|&e| pu(e, e, 0, 0)).collect();
        Case::new(name, map(&trees, &with_columns(1, Plan { pu, ..small() })))
    };
    vec![
        of("m16-a-later-lookups-column", cm(3), [1, 0]),
        of("m16-a-later-lookups-column-and-a-const", add(cm(3), constant(0)), [1, 0]),
        of("m16-own-column", cm(3), [0, 1]),
        of("m16-a-products-column", cm(5), [0, 1]),
        of("m16-an-earlier-lookups-column", cm(1), [0, 1]),
        of("m16-an-earlier-lookups-column-of-dimension-3", cm(2), [2, 1]),
    ]
}

fn m18_numerators_beyond() -> Vec<Case> {
    let plan = with_columns(2, Plan { pe: vec![ratio(0, 9)], ..small() });
    let beyond = |n| Plan { pe: vec![ratio(n, 0)], ..plan.clone() };
    vec![
        Case::new("m18-denominator-9-of-4", map(&four(), &plan)).note("the Rust gives it a column"),
        Case::new("m18-numerator-4-of-4", map(&four(), &beyond(4))),
        Case::new("m18-numerator-3-of-4", map(&four(), &beyond(3))),
    ]
}

/// Four expressions that read no column but of cm1.
fn four() -> Vec<Tree> {
    vec![mul(cm(0), cm(1)), leaf(Kind::CHALLENGE, 0), mulc(exp(0), 5), exp(1)]
}

fn m21_sources_beyond() -> Vec<Case> {
    let plan = with_columns(2, small());
    let ask = |name: &str, kind, line: &str| Case::new(name, walk(&two(), &plan, kind, &[line]));
    vec![
        ask("m21-ignored-by-dimensions", Walk::Dims, "first tmp:0 = copy cm:0 tmp:9 f:0"),
        ask("m21-fixed", FIX_N, "first tmp:0 = copy cm:0 exp:1 exp:0'"),
        ask("m21-refused-by-fixing", FIX_N, "first tmp:0 = copy cm:0 Z:0"),
        ask("m21-copy-of-none", Walk::Dims, "first tmp:0 = copy"),
        ask("m21-add-of-one", Walk::Dims, "first tmp:0 = add cm:0"),
        ask("m21-muladd-of-two", Walk::Dims, "first tmp:0 = muladd cm:0 cm:1"),
        ask("m21-the-first-source-decides", Walk::Dims, "first tmp:0 = add cm:2"),
        ask("m21-unknown-step", Walk::Dims, "first tmp:0 = step05 cm:2"),
    ]
}

fn m22_other_dimensions() -> Vec<Case> {
    let other_section = [of_section(CM1_N, &[1, 2], 5), of_section(11, &[1, 3], 6)].concat();
    vec![
        Case::new(
            "m22-dimensions-0-and-4",
            Question::Sections(of_section(CM1_N, &[0, 4, 2, 1], 77)),
        ),
        Case::new("m22-another-section", Question::Sections(other_section))
            .note("records of a section that does not exist keep their positions"),
    ]
}

#[cfg(test)]
mod tests {
    use super::*;
    use crate::input::Input;
    use crate::original_map::{ask_map, run_map};
    use crate::written::pool;
    use judge::run::on_large_stack;
    use original::starkinfo::{Program, StarkInfo};
    use original::starkinfo_cp_prover;

    /// M18: what the port refuses with 3, the original takes.
    #[test]
    fn the_original_takes_a_denominator_that_is_not_there() {
        let good = with_columns(2, Plan { pe: vec![ratio(0, 3)], ..small() });
        let (pool, _) = Input::new(pool(&four()), &good).admitted().unwrap();
        let plan = Plan { pe: vec![ratio(0, 9)], ..good };
        let mapped = on_large_stack(|| ask_map(&pool, &plan).map_err(|panic| panic.0)).unwrap();
        let expressions: Vec<usize> =
            mapped.temporary_columns.iter().map(|column| column.expression).collect();
        assert_eq!(expressions, [0, 9]);
    }

    /// M23: members of q_2ns and f_2ns are never filled in, and one is read for the other.
    #[test]
    fn members_of_the_last_sections_are_not_filled_in() {
        let plan = with_columns(2, Plan { q_deg: 1, ..small() });
        let (pool, plan) = Input::new(pool(&two()), &plan).admitted().unwrap();
        let mut after = run_map(&pool, &plan, Program::default());
        assert_eq!(after.end, Ok(()));
        let records = after.info.var_pol_map.len();
        assert_eq!(
            (&after.info.q_2ns[..], &after.info.f_2ns[..]),
            (&[records - 2][..], &[records - 1][..])
        );
        let sections = &mut after.info.map_sections;
        assert!(sections.q_2ns.is_empty() && sections.f_2ns.is_empty());
        sections.q_2ns.push(7);
        assert_eq!(sections.get("f_2ns"), &[7]);
    }

    /// M25: one function of this name gives a dimension, the other a degree.
    #[test]
    fn two_functions_have_one_name() {
        let plan = with_columns(2, small());
        let (pool, plan) = Input::new(pool(&two()), &plan).admitted().unwrap();
        let after = run_map(&pool, &plan, Program::default());
        let of = |e: usize| {
            let expression = &after.pil.expressions[e];
            let degree = starkinfo_cp_prover::get_exp_dim(&after.pil, expression);
            (StarkInfo::get_exp_dim(&after.pil, expression), degree)
        };
        assert_eq!((of(0), of(1)), ((1, 2), (3, 0)));
    }
}

//! The maps of vectors/plans.txt, which are the original's answers, decoded and written again.

mod hex;

use enonkasse::map::{map, Width};
use enonkasse::plan::{Intermediate, Lookup, Product};
use enonkasse::{ExpressionId, Frames, Map, Plan};
use std::fmt::Display;

const VECTORS: &str = include_str!("../../vectors/plans.txt");

fn product(numbers: &[u16]) -> Product {
    Product { num: ExpressionId(numbers[0]), den: ExpressionId(numbers[1]) }
}

/// Takes a line of a plan: a name, and numbers.
fn take_line(plan: &mut Plan, name: &str, n: &[u16]) {
    match name {
        "bits" => (plan.n_bits, plan.n_bits_ext) = (n[0] as u8, n[1] as u8),
        "columns" => plan.columns = [n[0], n[1], n[2], n[3]],
        "quotient" => (plan.q_deg, plan.c_exp) = (n[0], ExpressionId(n[1])),
        "pu" => {
            let (f, t) = (ExpressionId(n[0]), ExpressionId(n[1]));
            plan.pu.push(Lookup { f, t, product: product(&n[2..]) });
        }
        "pe" => plan.pe.push(product(n)),
        "ci" => plan.ci.push(product(n)),
        "im" => {
            let expression = ExpressionId(n[0]);
            plan.intermediates.push(Intermediate { expression, cm: n[1] });
        }
        "qs" => plan.qs.extend(n),
        "q2exp" => plan.q2exp.extend(n.iter().map(|&e| ExpressionId(e))),
        _ => panic!("{} in a plan", name),
    }
}

/// A line of an answer; `-` where there is nothing.
fn line<T: Display>(name: &str, items: impl IntoIterator<Item = T>) -> String {
    let items: Vec<_> = items.into_iter().map(|item| item.to_string()).collect();
    let text = if items.is_empty() { "-".to_string() } else { items.join(" ") };
    format!("{} {}", name, text)
}

fn written(map: &Map) -> Vec<String> {
    let widths = |part: fn(&Width) -> u16| map.widths.iter().map(part).collect::<Vec<_>>();
    let records = map.records.iter().map(|r| {
        let section = r.section as usize;
        format!("{}:{}:{}", section, r.dimension, r.position)
    });
    let columns = map.columns.iter().map(|c| format!("{}:{}", c.expression.0, c.record));
    let exp2pol = map.exp2pol.iter().enumerate();
    let exp2pol = exp2pol.filter_map(|(e, record)| record.map(|r| format!("{}:{}", e, r)));
    vec![
        line("records", records),
        line("cm_n", &map.cm_n),
        line("cm_2ns", &map.cm_2ns),
        line("tmpexp", columns),
        line("exp2pol", exp2pol),
        line("cm_dims", &map.cm_dims),
        line("q_dim", [map.q_dim]),
        line("n1", widths(|width| width.n1)),
        line("n", widths(|width| width.n)),
        line("n3", widths(|width| width.n3)),
        line("offsets", map.offsets),
        line("total", [map.total]),
    ]
}

/// Frames, plan and answer of a vector that asks for a map of a plan that is one.
fn vector(text: &str) -> Option<(Frames, Plan, Vec<&str>)> {
    let (question, rest) = text.split_once("\nask map\nanswers\n")?;
    let answer = rest.split("\nend").next()?.lines().collect();
    let (mut frames, mut plan) = (Frames::new(), Plan::new(0, 0, 0, ExpressionId(0)));
    for line in question.lines().skip(1) {
        match line.split_once(' ') {
            None => frames.push(&hex::decode(line)),
            Some(("plan", _)) => return None,
            Some((name, numbers)) => {
                let numbers = numbers.split(' ').map(|number| number.parse().unwrap());
                take_line(&mut plan, name, &numbers.collect::<Vec<_>>());
            }
        }
    }
    Some((frames, plan, answer))
}

#[test]
fn the_stored_maps_are_answered() {
    let (mut asked, mut refused) = (0, 0);
    for text in VECTORS.split("\nvector ").skip(1) {
        let (frames, plan, answer) = match vector(text) {
            Some(vector) => vector,
            None => continue,
        };
        let got = map(&frames, &plan).map(|map| written(&map)).unwrap_or_else(|refusal| {
            refused += 1;
            vec![format!("refused {}", refusal.number())]
        });
        assert_eq!(got, answer, "{}", text.lines().next().unwrap_or_default());
        asked += 1;
    }
    assert!(asked >= 340 && refused >= 120, "{} maps, {} refused", asked, refused);
}

//! Random inputs: a pool, and a plan that agrees with it unless a fault is put in.

use crate::faults;
use crate::input::{used_expression, Draft, Input};
use crate::plan::{Intermediate, Plan, Pu, Ratio};
use judge::kinds::Kind;
use judge::pool::{owners, Pool};
use judge::random::{pool_of, Random};

/// One input of so many has a pool larger than most.
const LARGE_EVERY: usize = 20;

/// Of a hundred inputs so many get a fault, and of these so many a second one.
const FAULTY: usize = 40;
const TWICE_FAULTY: usize = 25;

/// The original's dimension of an expression takes a visit for each way to each leaf.
const MAX_VISITS: u64 = 20_000;

/// An input of any kind.
pub fn input(random: &mut Random) -> Input {
    let (mut pool, mut plan) = agreeing(random);
    if !random.chance(FAULTY) {
        return Input::new(pool, &plan);
    }
    faults::put_in(random, &mut pool, &mut plan);
    if random.chance(TWICE_FAULTY) {
        faults::put_in(random, &mut pool, &mut plan);
    }
    let mut input = Input::new(pool, &plan);
    if random.one_of(faults::MALFORMED_EVERY) {
        faults::spoil(random, &mut input.plan);
    }
    input
}

/// A pool and a plan that no number but 12 refuses.
pub fn agreeing(random: &mut Random) -> (Draft, Plan) {
    let nodes =
        if random.one_of(LARGE_EVERY) { random.between(40, 150) } else { random.between(3, 24) };
    let pool = pool_of(random, nodes, (nodes / 4).max(1));
    let plan = random_plan(random, pool.expressions().len());
    let pool = with_leaves_of(random, &pool, &plan);
    (pool, plan)
}

fn random_plan(random: &mut Random, expressions: usize) -> Plan {
    let n_bits = random.pick(&[0, 1, 3, 10, 23, 24]);
    let n_bits_ext = n_bits + random.below(5) as u8;
    let n_cm1 = random.pick(&[0, 1, 1, 2, 3, 4, 7]);
    let most = random.pick(&[0, 1, 1, 2, 3]);
    let pu = random_many(random, most, |random| Pu {
        f: expression(random, expressions),
        t: expression(random, expressions),
        ratio: ratio(random, expressions),
    });
    let pe = random_many(random, most, |random| ratio(random, expressions));
    let ci = random_many(random, most, |random| ratio(random, expressions));
    let q_deg = random.below(4) as u16;
    let q2exp = random_many(random, 3, |random| expression(random, expressions));
    let mut plan = Plan { n_bits, n_bits_ext, q_deg, pu, pe, ci, q2exp, ..Plan::default() };
    plan.c_exp = expression(random, expressions);
    let n_cm2 = 2 * plan.pu.len() as u16;
    let first = n_cm1 + n_cm2 + plan.products() as u16;
    plan.intermediates = random_intermediates(random, expressions, first);
    let n_cm3 = (plan.products() + plan.intermediates.len()) as u16;
    plan.n_cm = [n_cm1, n_cm2, n_cm3, q_deg];
    plan.qs = random_qs(random, &plan);
    plan
}

fn random_many<T>(
    random: &mut Random,
    most: usize,
    mut one: impl FnMut(&mut Random) -> T,
) -> Vec<T> {
    (0..random.between(0, most)).map(|_| one(random)).collect()
}

fn expression(random: &mut Random, expressions: usize) -> u16 {
    random.below(expressions) as u16
}

fn ratio(random: &mut Random, expressions: usize) -> Ratio {
    Ratio { num: expression(random, expressions), den: expression(random, expressions) }
}

/// Some of the expressions. Their columns come one after the other from `first`, or are any.
fn random_intermediates(random: &mut Random, expressions: usize, first: u16) -> Vec<Intermediate> {
    let percent = random.pick(&[0, 0, 20, 50]);
    let any = random.one_of(6);
    let mut intermediates: Vec<Intermediate> = Vec::new();
    for expression in (0..expressions as u16).filter(|_| random.chance(percent)) {
        let cm = first + intermediates.len() as u16;
        intermediates.push(Intermediate { expression, cm });
    }
    for intermediate in intermediates.iter_mut().filter(|_| any) {
        intermediate.cm = random.pick(&[0, 1, 2, intermediate.cm, u16::MAX]);
    }
    intermediates
}

/// Mostly as many as there are in q2exp, and numbers of records.
fn random_qs(random: &mut Random, plan: &Plan) -> Vec<u16> {
    let records = plan.records();
    let count = if random.chance(80) { plan.q2exp.len() } else { random.below(4) };
    let stray = random.one_of(8);
    let number = |random: &mut Random| match stray {
        true => random.pick(&[records as u16 - 1, records as u16, u16::MAX]),
        false => random.below(records) as u16,
    };
    (0..count).map(|_| number(random)).collect()
}

/// The pool with cm and q leaves that the plan has, and no cycle through q leaves. Where it has
/// none for a leaf, that becomes a const.
fn with_leaves_of(random: &mut Random, pool: &Pool, plan: &Plan) -> Draft {
    let mut draft = Draft::of(pool);
    let owners = owners(pool.nodes(), pool.expressions());
    let ranks = ranks(pool);
    for (node, owner) in draft.nodes.iter_mut().zip(owners) {
        let id = match node.kind {
            Kind::CM => column(random, plan),
            Kind::Q => earlier_q(random, plan, &ranks, owner),
            _ => continue,
        };
        match id {
            Some(id) => node.id = id,
            None => {
                node.kind = Kind::CONST;
                node.id = 0;
            }
        }
    }
    if visits(pool, &draft, plan) > MAX_VISITS {
        cut_uses(&mut draft);
    }
    draft
}

/// Mostly one of cm1, which always has a dimension.
fn column(random: &mut Random, plan: &Plan) -> Option<u16> {
    let n_cm1 = usize::from(plan.n_cm[0]);
    match plan.columns() {
        0 => None,
        _ if n_cm1 > 0 && random.chance(75) => Some(random.below(n_cm1) as u16),
        columns => Some(random.below(columns) as u16),
    }
}

/// A q whose expression comes before the leaf's own.
fn earlier_q(
    random: &mut Random,
    plan: &Plan,
    ranks: &[usize],
    owner: Option<usize>,
) -> Option<u16> {
    let rank = owner.map_or(ranks.len(), |owner| ranks[owner]);
    let is_earlier = |&q: &u16| ranks[usize::from(plan.q2exp[usize::from(q)])] < rank;
    let earlier: Vec<u16> = (0..plan.q2exp.len() as u16).filter(is_earlier).collect();
    if earlier.is_empty() {
        return None;
    }
    Some(random.pick(&earlier))
}

/// A number for each expression: it reads only those with smaller ones.
fn ranks(pool: &Pool) -> Vec<usize> {
    let uses = uses(pool.nodes(), pool, |node| match node.kind {
        Kind::EXP => Some(usize::from(node.id)),
        _ => None,
    });
    let mut ranks = vec![None; uses.len()];
    for rank in 0..uses.len() {
        let is_next = |&e: &usize| {
            ranks[e].is_none() && uses[e].iter().all(|&used: &usize| ranks[used].is_some())
        };
        let next = (0..uses.len()).find(is_next).expect("an admitted pool has no cycle");
        ranks[next] = Some(rank);
    }
    ranks.into_iter().flatten().collect()
}

/// The expressions that each expression's leaves lead to.
fn uses(
    nodes: &[judge::pool::Node],
    pool: &Pool,
    used: impl Fn(&judge::pool::Node) -> Option<usize>,
) -> Vec<Vec<usize>> {
    let mut uses = vec![Vec::new(); pool.expressions().len()];
    for (node, owner) in nodes.iter().zip(owners(pool.nodes(), pool.expressions())) {
        if let (Some(owner), Some(used)) = (owner, used(node)) {
            uses[owner].push(used);
        }
    }
    uses
}

/// Ways from the expressions to leaves, at most.
fn visits(pool: &Pool, draft: &Draft, plan: &Plan) -> u64 {
    let uses = uses(&draft.nodes, pool, |node| used_expression(node, plan));
    let mut visits = vec![None; uses.len()];
    for _ in 0..uses.len() {
        for expression in 0..uses.len() {
            let below: Option<u64> = uses[expression].iter().map(|&used| visits[used]).sum();
            visits[expression] = below.map(|below| (below + 1).min(MAX_VISITS + 1));
        }
    }
    visits.into_iter().flatten().sum()
}

/// Lets no leaf lead to an expression any more.
fn cut_uses(draft: &mut Draft) {
    let leads = |kind: Kind| kind == Kind::EXP || kind == Kind::Q;
    for node in draft.nodes.iter_mut().filter(|node| leads(node.kind)) {
        node.kind = Kind::CONST;
    }
}

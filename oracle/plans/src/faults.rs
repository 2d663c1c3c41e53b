//! Faults of an input, one for each way to be refused.

use crate::input::Draft;
use crate::plan::{Intermediate, Plan, Pu, Ratio, MAX_RECORDS};
use asked::bits::{MAX_BITS, MAX_MORE_BITS};
use judge::kinds::Kind;
use judge::pool::{Expression, Flags, Node};
use judge::random::Random;

/// Of so many faulty inputs one has a plan that is malformed.
pub const MALFORMED_EVERY: usize = 10;

/// A fault that may be put in; where there is no place for it nothing changes.
type Fault = fn(&mut Random, &mut Draft, &mut Plan);

const FAULTS: [Fault; 15] = [
    too_many_records,
    another_child_count,
    a_child_that_is_not_free,
    a_root_that_is_not_free,
    a_leaf_beyond,
    an_entry_beyond,
    an_entry_beyond,
    a_cycle_of_exp,
    a_cycle_of_q,
    bits_out_of_range,
    bits_out_of_range,
    other_counts,
    other_counts,
    a_later_column_alone,
    a_later_column_alone,
];

pub fn put_in(random: &mut Random, pool: &mut Draft, plan: &mut Plan) {
    random.pick(&FAULTS)(random, pool, plan);
}

/// Makes a plan's record malformed, mostly.
pub fn spoil(random: &mut Random, bytes: &mut Vec<u8>) {
    match random.below(4) {
        0 => bytes.push(0),
        1 => bytes.truncate(random.below(bytes.len())),
        // A byte of the counts, which is then not that of the entries.
        2 => bytes[random.between(14, 25)] ^= 1 << random.below(8),
        _ => equal_intermediates(bytes),
    }
}

/// Two intermediates of the same expression, in place of those that there were.
fn equal_intermediates(bytes: &mut Vec<u8>) {
    if let Some(mut plan) = Plan::decode(bytes) {
        plan.intermediates = vec![Intermediate::default(); 2];
        *bytes = plan.bytes();
    }
}

/// One that fits, or more than fit.
fn too_many_records(random: &mut Random, _: &mut Draft, plan: &mut Plan) {
    let others = plan.records() - 2 * usize::from(plan.n_cm[0]);
    let most = MAX_RECORDS.saturating_sub(others) / 2;
    plan.n_cm[0] = random.pick(&[most as u16, most as u16 + 1, u16::MAX]);
    if random.chance(20) {
        plan.q_deg = u16::MAX;
    }
}

fn parent(random: &mut Random, pool: &Draft) -> Option<usize> {
    let has_children = |&n: &usize| !pool.nodes[n].children.is_empty();
    choice(random, (0..pool.nodes.len()).filter(has_children))
}

fn leaf(random: &mut Random, pool: &Draft) -> Option<usize> {
    let is_leaf = |&n: &usize| !pool.nodes[n].kind.is_operation();
    choice(random, (0..pool.nodes.len()).filter(is_leaf))
}

fn choice<T: Copy>(random: &mut Random, from: impl Iterator<Item = T>) -> Option<T> {
    let from: Vec<T> = from.collect();
    if from.is_empty() {
        return None;
    }
    Some(random.pick(&from))
}

fn another_child_count(random: &mut Random, pool: &mut Draft, _: &mut Plan) {
    if let Some(node) = parent(random, pool) {
        let children = &mut pool.nodes[node].children;
        match random.chance(50) {
            true => children.truncate(children.len() - 1),
            false => children.push(children[0]),
        }
    }
}

fn a_child_that_is_not_free(random: &mut Random, pool: &mut Draft, _: &mut Plan) {
    if let Some(node) = parent(random, pool) {
        let any = random.below(node) as u16;
        let children = &mut pool.nodes[node].children;
        let last = children.len() - 1;
        children[last] = random.pick(&[node as u16, any, u16::MAX, children[0]]);
    }
}

fn a_root_that_is_not_free(random: &mut Random, pool: &mut Draft, _: &mut Plan) {
    let nodes = pool.nodes.len() as u16;
    let any = random.below(pool.nodes.len()) as u16;
    let expression = random.below(pool.expressions.len());
    pool.expressions[expression].root = random.pick(&[any, nodes, u16::MAX]);
}

fn a_leaf_beyond(random: &mut Random, pool: &mut Draft, plan: &mut Plan) {
    let expressions = pool.expressions.len();
    if let Some(node) = leaf(random, pool) {
        let (kind, there) = random.pick(&[
            (Kind::CM, plan.columns()),
            (Kind::EXP, expressions),
            (Kind::Q, plan.q2exp.len()),
        ]);
        let id = random.pick(&[there as u16, u16::MAX]);
        pool.nodes[node] = Node { kind, id, literal: None, ..pool.nodes[node].clone() };
    }
}

fn an_entry_beyond(random: &mut Random, pool: &mut Draft, plan: &mut Plan) {
    let beyond = random.pick(&[pool.expressions.len() as u16, u16::MAX]);
    let pu = plan.pu.iter_mut().flat_map(|Pu { f, t, ratio: Ratio { num, den } }| [f, t, num, den]);
    let ratios = plan.pe.iter_mut().chain(&mut plan.ci);
    let ratios = ratios.flat_map(|Ratio { num, den }| [num, den]);
    let last = plan.intermediates.last_mut().map(|last| &mut last.expression);
    let all = pu.chain(ratios).chain(last).chain(&mut plan.q2exp).chain([&mut plan.c_exp]);
    let mut entries: Vec<&mut u16> = all.collect();
    let entry = random.below(entries.len());
    *entries[entry] = beyond;
}

/// A leaf that leads to its own expression, or to one that leads there.
fn a_cycle_of_exp(random: &mut Random, pool: &mut Draft, _: &mut Plan) {
    if let Some(node) = leaf(random, pool) {
        let id = random.below(pool.expressions.len()) as u16;
        pool.nodes[node] = exp(id);
    }
}

fn exp(id: u16) -> Node {
    Node { kind: Kind::EXP, next: false, id, children: Vec::new(), literal: None }
}

/// A q leaf whose expression may be its own.
fn a_cycle_of_q(random: &mut Random, pool: &mut Draft, plan: &mut Plan) {
    if let Some(node) = leaf(random, pool) {
        plan.q2exp.push(random.below(pool.expressions.len()) as u16);
        pool.nodes[node] = Node { kind: Kind::Q, ..exp(plan.q2exp.len() as u16 - 1) };
    }
}

fn bits_out_of_range(random: &mut Random, _: &mut Draft, plan: &mut Plan) {
    match random.below(4) {
        0 => (plan.n_bits, plan.n_bits_ext) = (MAX_BITS + 1, MAX_BITS + 1),
        1 => plan.n_bits = u8::MAX,
        2 => plan.n_bits_ext = plan.n_bits.saturating_sub(1),
        _ => plan.n_bits_ext = plan.n_bits.saturating_add(MAX_MORE_BITS + 1),
    }
}

/// More, so that cm leaves stay in range; now and then fewer.
fn other_counts(random: &mut Random, _: &mut Draft, plan: &mut Plan) {
    match random.below(6) {
        0 => plan.q_deg = plan.q_deg.saturating_add(1),
        1 => plan.n_cm[3] = plan.n_cm[3].saturating_sub(1),
        2 => plan.pe.push(Ratio::default()),
        place => plan.n_cm[place - 2] += 1,
    }
}

/// An expression that is a column alone, where its dimension may not be known yet.
fn a_later_column_alone(random: &mut Random, pool: &mut Draft, plan: &mut Plan) {
    if plan.columns() == 0 {
        return;
    }
    let id = random.below(plan.columns()) as u16;
    let root = pool.nodes.len() as u16;
    pool.nodes.push(Node { kind: Kind::CM, ..exp(id) });
    pool.expressions.push(Expression { root, flags: Flags::NONE });
    let alone = pool.expressions.len() as u16 - 1;
    match random.below(3) {
        0 => plan.c_exp = alone,
        1 => plan.pu.iter_mut().for_each(|pu| (pu.f, pu.t) = (alone, alone)),
        _ => {
            if let Some(last) = plan.intermediates.last_mut() {
                last.expression = alone;
            }
        }
    }
}

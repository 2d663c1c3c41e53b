//! Pools, requests and plans of a chosen size.

use judge::case::{add, cm, constant, exp, mul, neg, plain_pool, Tree};
use judge::pool::Pool;
use judge::script::Request;
use plans::plan::{Intermediate, Plan, MAX_RECORDS};
use plans::written::{pu, small, with_columns};

/// Nodes of each expression of a regular pool.
const NODES_EACH: usize = 8;

/// The leaves of a regular pool read so many columns.
const COLUMNS: u16 = 64;

/// What an expression reads besides columns.
#[derive(Clone, Copy, PartialEq)]
pub enum Reading {
    /// The expression of half its number.
    Others,
    Columns,
}

fn tree(e: u16, reading: Reading) -> Tree {
    let other = match (e, reading) {
        (1.., Reading::Others) => exp(e / 2),
        _ => cm((e + 2) % COLUMNS),
    };
    let product = mul(cm(e % COLUMNS), cm((e + 1) % COLUMNS));
    neg(add(product, mul(constant(e % COLUMNS), other)))
}

/// -(cm·cm + const·e), eight nodes for each expression.
pub fn regular(nodes: usize, reading: Reading) -> Pool {
    let number = (nodes / NODES_EACH) as u16;
    pool_of((0..number).map(|e| tree(e, reading)).collect())
}

/// neg of neg of .. of a column.
pub fn chain(nodes: usize) -> Pool {
    pool_of(vec![(1..nodes).fold(cm(0), |tree, _| neg(tree))])
}

pub fn pool_of(trees: Vec<Tree>) -> Pool {
    plain_pool(&trees)
}

/// Every expression at this row and the next, fused.
pub fn both_ways(pool: &Pool) -> Vec<Request> {
    let rows = |e| [false, true].map(|prime| request(e, prime));
    (0..pool.expressions().len() as u16).flat_map(rows).collect()
}

pub fn request(expression: u16, prime: bool) -> Request {
    Request { expression, prime, muladd: true, asked: None }
}

/// A plan over a regular pool: of its expressions an eighth are lookups' (four each), as many intermediates; with so
/// many records.
pub fn plan(pool: &Pool, records: usize) -> Plan {
    let expressions = pool.expressions().len() as u16;
    let named = expressions / 8;
    let lookups = (0..named / 4).map(|k| pu(4 * k, 4 * k + 1, 4 * k + 2, 4 * k + 3));
    let intermediates = (named..2 * named).map(|e| Intermediate { expression: e, cm: e % COLUMNS });
    let plan = Plan {
        q_deg: 2,
        c_exp: expressions - 1,
        pu: lookups.collect(),
        intermediates: intermediates.collect(),
        ..small()
    };
    let plan = with_columns(COLUMNS, plan);
    let more = (records - plan.records()) / 2;
    with_columns(COLUMNS + more as u16, plan)
}

/// The most records that a plan may have.
pub fn largest_plan(pool: &Pool) -> Plan {
    plan(pool, MAX_RECORDS)
}

#[cfg(test)]
mod tests {
    use super::*;
    use judge::pool::{MAX_EXPRESSIONS, MAX_NODES};

    #[test]
    fn pools_and_plans_are_as_large_as_can_be() {
        for reading in [Reading::Others, Reading::Columns] {
            let pool = regular(MAX_NODES, reading);
            assert_eq!(pool.nodes().len(), MAX_NODES);
            assert_eq!(pool.expressions().len(), MAX_EXPRESSIONS);
            assert_eq!(both_ways(&pool).len(), 2 * MAX_EXPRESSIONS);
            assert_eq!(largest_plan(&pool).records(), MAX_RECORDS);
        }
        assert_eq!(chain(MAX_NODES).nodes().len(), MAX_NODES);
    }
}

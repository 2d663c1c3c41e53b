//! Inputs: a pool that need not be admitted, with a plan's record; and the refusals that need
//! no answer of the original, in document 01's order.

use crate::plan::Plan;
use asked::bits;
use judge::kinds::Kind;
use judge::pool::{leaf_into_cycle, owners, Expression, Node, Pool, MAX_EXPRESSIONS, MAX_NODES};
use judge::refusals::{BITS, CHILD_COUNT, COUNTS, CYCLE, FULL, NOT_THERE};

/// Nodes and expressions of well-formed frames. Whether they fit together is not said.
#[derive(Clone, Debug, Default, PartialEq, Eq)]
pub struct Draft {
    pub nodes: Vec<Node>,
    pub expressions: Vec<Expression>,
}

impl Draft {
    pub fn of(pool: &Pool) -> Draft {
        Draft { nodes: pool.nodes().to_vec(), expressions: pool.expressions().to_vec() }
    }

    /// Frames in order.
    pub fn frames(&self) -> impl Iterator<Item = Vec<u8>> + '_ {
        self.nodes.iter().map(Node::frame).chain(self.expressions.iter().map(Expression::frame))
    }
}

/// What is lent: the frames of a pool, and the bytes of a plan.
#[derive(Clone, Debug, Default, PartialEq, Eq)]
pub struct Input {
    pub pool: Draft,
    pub plan: Vec<u8>,
}

impl Input {
    pub fn new(pool: Draft, plan: &Plan) -> Input {
        Input { pool, plan: plan.bytes() }
    }

    /// The pool and the plan, or the number of all refusals but 12, for which see `dimensions`.
    pub fn admitted(&self) -> Result<(Pool, Plan), u8> {
        if self.pool.nodes.len() > MAX_NODES || self.pool.expressions.len() > MAX_EXPRESSIONS {
            return Err(FULL);
        }
        let plan = Plan::read(&self.plan)?;
        let pool = self.linked_pool(&plan)?;
        refused_if(has_cycle(&pool, &plan), CYCLE)?;
        refused_if(!bits::in_range(plan.n_bits, plan.n_bits_ext), BITS)?;
        refused_if(!counts_agree(&plan), COUNTS)?;
        Ok((pool, plan))
    }

    /// 2 and 3, each over the whole.
    fn linked_pool(&self, plan: &Plan) -> Result<Pool, u8> {
        let Draft { nodes, expressions } = &self.pool;
        refused_if(!nodes.iter().all(Node::has_its_children), CHILD_COUNT)?;
        let mut pool = Pool::default();
        for node in nodes {
            pool.push_node(node.clone()).map_err(|_| NOT_THERE)?;
        }
        for &expression in expressions {
            pool.push_expression(expression).map_err(|_| NOT_THERE)?;
        }
        let all_there = leaves_are_there(&pool, plan) && expressions_are_there(&pool, plan);
        refused_if(!all_there, NOT_THERE)?;
        Ok(pool)
    }
}

fn refused_if(refused: bool, number: u8) -> Result<(), u8> {
    if refused {
        return Err(number);
    }
    Ok(())
}

/// A leaf that nothing uses counts too.
fn leaves_are_there(pool: &Pool, plan: &Plan) -> bool {
    pool.nodes().iter().all(|node| {
        let there = match node.kind {
            Kind::CM => plan.columns(),
            Kind::EXP => pool.expressions().len(),
            Kind::Q => plan.q2exp.len(),
            _ => return true,
        };
        usize::from(node.id) < there
    })
}

fn expressions_are_there(pool: &Pool, plan: &Plan) -> bool {
    let of_lookups = plan.pu.iter().flat_map(|pu| [pu.f, pu.t]);
    let of_products = plan.ratios().flat_map(|ratio| ratio.numbers());
    let of_intermediates = plan.intermediates.iter().map(|i| i.expression);
    of_lookups
        .chain(of_products)
        .chain(of_intermediates)
        .chain(plan.q2exp.iter().copied())
        .chain([plan.c_exp])
        .all(|expression| usize::from(expression) < pool.expressions().len())
}

/// Through exp leaves and, by way of q2exp, q leaves.
fn has_cycle(pool: &Pool, plan: &Plan) -> bool {
    let owners = owners(pool.nodes(), pool.expressions());
    let mut uses = vec![Vec::new(); pool.expressions().len()];
    for (node, leaf) in pool.nodes().iter().enumerate() {
        let used = used_expression(leaf, plan);
        if let (Some(owner), Some(used)) = (owners[node], used) {
            uses[owner].push((used, node));
        }
    }
    leaf_into_cycle(&uses).is_some()
}

/// The expression that a leaf leads to.
pub fn used_expression(leaf: &Node, plan: &Plan) -> Option<usize> {
    match leaf.kind {
        Kind::EXP => Some(usize::from(leaf.id)),
        Kind::Q => Some(usize::from(plan.q2exp[usize::from(leaf.id)])),
        _ => None,
    }
}

fn counts_agree(plan: &Plan) -> bool {
    let [_, n_cm2, n_cm3, n_cm4] = plan.n_cm.map(usize::from);
    n_cm2 == 2 * plan.pu.len()
        && n_cm3 == plan.products() + plan.intermediates.len()
        && n_cm4 == usize::from(plan.q_deg)
}

#[cfg(test)]
mod tests {
    use super::*;
    use crate::written::{pool, small, with_columns};
    use judge::case::cm;
    use judge::refusals::MALFORMED;

    fn input() -> Input {
        Input::new(pool(&[cm(0)]), &with_columns(1, small()))
    }

    #[test]
    fn a_pool_past_its_limits_is_9() {
        assert!(input().admitted().is_ok());
        let mut nodes = input();
        nodes.pool.nodes = vec![nodes.pool.nodes[0].clone(); MAX_NODES];
        assert!(nodes.admitted().is_ok());
        nodes.pool.nodes.push(nodes.pool.nodes[0].clone());
        assert_eq!(nodes.admitted(), Err(FULL));
        let mut expressions = input();
        expressions.pool.expressions = vec![expressions.pool.expressions[0]; MAX_EXPRESSIONS];
        assert_eq!(expressions.admitted(), Err(NOT_THERE));
        expressions.pool.expressions.push(expressions.pool.expressions[0]);
        assert_eq!(expressions.admitted(), Err(FULL));
    }

    /// Frames are read before the plan.
    #[test]
    fn the_pools_9_comes_before_the_plans_1() {
        let mut input = input();
        input.plan.pop();
        assert_eq!(input.admitted(), Err(MALFORMED));
        input.pool.nodes = vec![input.pool.nodes[0].clone(); MAX_NODES + 1];
        assert_eq!(input.admitted(), Err(FULL));
    }
}

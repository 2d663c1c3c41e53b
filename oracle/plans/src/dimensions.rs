//! Whether a plan gets a record of dimension 0 (12): the original would make it and go on, so
//! this is found here, and the original's records must then show the same.

use crate::plan::Plan;
use judge::kinds::Kind;
use judge::pool::Pool;

/// The dimension of a product's column.
const PRODUCT: usize = 3;

/// Whether a record of an admitted plan gets dimension 0. Columns' dimensions are those that
/// stand when an expression is looked at, which is while they are filled in.
pub fn some_record_has_none(pool: &Pool, plan: &Plan) -> bool {
    let [n_cm1, n_cm2, _, _] = plan.n_cm.map(usize::from);
    let mut cm_dims = vec![0; plan.columns()];
    cm_dims[..n_cm1].fill(1);
    for (number, pu) in plan.pu.iter().enumerate() {
        let dimension = of_expression(pool, plan, &cm_dims, pu.f)
            .max(of_expression(pool, plan, &cm_dims, pu.t));
        if dimension == 0 {
            return true;
        }
        cm_dims[n_cm1 + 2 * number..][..2].fill(dimension);
    }
    let third = n_cm1 + n_cm2;
    cm_dims[third..third + plan.products()].fill(PRODUCT);
    for (number, intermediate) in plan.intermediates.iter().enumerate() {
        let dimension = of_expression(pool, plan, &cm_dims, intermediate.expression);
        if dimension == 0 {
            return true;
        }
        // Over the products' columns, as in the original.
        cm_dims[third + number] = dimension;
    }
    of_expression(pool, plan, &cm_dims, plan.c_exp) == 0
}

fn of_expression(pool: &Pool, plan: &Plan, cm_dims: &[usize], expression: u16) -> usize {
    let mut dimensions =
        Dimensions { pool, plan, cm_dims, known: vec![None; pool.expressions().len()] };
    dimensions.of(usize::from(expression))
}

struct Dimensions<'a> {
    pool: &'a Pool,
    plan: &'a Plan,
    cm_dims: &'a [usize],
    known: Vec<Option<usize>>,
}

impl Dimensions<'_> {
    fn of(&mut self, expression: usize) -> usize {
        if let Some(known) = self.known[expression] {
            return known;
        }
        let dimension = self.of_node(self.pool.expressions()[expression].root);
        self.known[expression] = Some(dimension);
        dimension
    }

    fn of_node(&mut self, number: u16) -> usize {
        let (pool, plan) = (self.pool, self.plan);
        let node = &pool.nodes()[usize::from(number)];
        let id = usize::from(node.id);
        match node.kind {
            Kind::CM => self.cm_dims[id],
            Kind::EXP => self.of(id),
            Kind::Q => self.of(usize::from(plan.q2exp[id])),
            Kind::CHALLENGE | Kind::EVAL | Kind::X_DIV_X_SUB_XI | Kind::X_DIV_X_SUB_WXI => 3,
            Kind::CONST | Kind::NUMBER | Kind::PUBLIC | Kind::X => 1,
            _ => node.children.iter().map(|&child| self.of_node(child)).fold(1, usize::max),
        }
    }
}

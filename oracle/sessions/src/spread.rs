//! The same questions with larger numbers: expressions between others that nothing needs, and more
//! columns.

use judge::kinds::Kind;
use judge::pool::{Expression, Flags, Node, Pool, MAX_EXPRESSIONS};
use judge::random::Random;
use plans::input::{Draft, Input};
use plans::plan::{Plan, MAX_RECORDS};
use searches::search::Search;

/// Where each expression goes: ascending, below a limit of expressions.
struct Places {
    of: Vec<u16>,
    all: usize,
}

impl Places {
    fn new(random: &mut Random, expressions: usize) -> Places {
        let most = match random.below(6) {
            0 => expressions + 3,
            1 => 66,
            2 => 200,
            _ => MAX_EXPRESSIONS,
        };
        let all = most.clamp(expressions, MAX_EXPRESSIONS);
        let mut of = Vec::new();
        for place in 0..all {
            let (missing, left) = (expressions - of.len(), all - place);
            if random.below(left) < missing {
                of.push(place as u16);
            }
        }
        Places { of, all }
    }

    fn move_to(&self, expression: &mut u16) {
        if let Some(&place) = self.of.get(usize::from(*expression)) {
            *expression = place;
        }
    }

    /// The pool with the others, each a leaf.
    fn pool(&self, random: &mut Random, pool: &Draft) -> Draft {
        let mut nodes = pool.nodes.clone();
        let exps = nodes.iter_mut().filter(|node| node.kind == Kind::EXP);
        exps.for_each(|node| self.move_to(&mut node.id));
        let mut expressions = Vec::new();
        for place in 0..self.all as u16 {
            match self.of.binary_search(&place) {
                Ok(old) => expressions.push(pool.expressions[old]),
                Err(_) => {
                    expressions.push(Expression { root: nodes.len() as u16, flags: Flags::NONE });
                    nodes.push(self.filler(random));
                }
            }
        }
        Draft { nodes, expressions }
    }

    /// A const, or one of the expressions that are moved.
    fn filler(&self, random: &mut Random) -> Node {
        let (kind, id) = match random.chance(50) {
            true => (Kind::CONST, 0),
            false => (Kind::EXP, random.pick(&self.of)),
        };
        Node { kind, id, next: false, children: Vec::new(), literal: None }
    }
}

/// Of an accepted input; others stay as they are.
pub fn input(random: &mut Random, input: Input) -> Input {
    let (pool, mut plan) = match input.admitted() {
        Ok((pool, plan)) => (Draft::of(&pool), plan),
        Err(_) => return input,
    };
    let places = Places::new(random, pool.expressions.len());
    let mut pool = places.pool(random, &pool);
    for pu in &mut plan.pu {
        let numbers = [&mut pu.f, &mut pu.t, &mut pu.ratio.num, &mut pu.ratio.den];
        numbers.into_iter().for_each(|number| places.move_to(number));
    }
    let ratios = plan.pe.iter_mut().chain(&mut plan.ci);
    ratios.for_each(|ratio| {
        places.move_to(&mut ratio.num);
        places.move_to(&mut ratio.den);
    });
    plan.intermediates.iter_mut().for_each(|i| places.move_to(&mut i.expression));
    plan.q2exp.iter_mut().for_each(|number| places.move_to(number));
    places.move_to(&mut plan.c_exp);
    add_columns(random, &mut pool, &mut plan);
    Input::new(pool, &plan)
}

/// More columns of cm1; those behind them keep their meaning.
fn add_columns(random: &mut Random, pool: &mut Draft, plan: &mut Plan) {
    let most = (MAX_RECORDS - plan.records()) / 2;
    let more = random.pick(&[0, 1, 100, most / 2, most]).min(most) as u16;
    let first = plan.n_cm[0];
    plan.n_cm[0] += more;
    let columns = plan.columns();
    let behind = |cm: &mut u16| {
        if (usize::from(first)..columns - usize::from(more)).contains(&usize::from(*cm)) {
            *cm += more;
        }
    };
    let cms = pool.nodes.iter_mut().filter(|node| node.kind == Kind::CM);
    cms.for_each(|node| behind(&mut node.id));
    plan.intermediates.iter_mut().for_each(|i| behind(&mut i.cm));
}

pub fn search(random: &mut Random, search: &Search) -> Search {
    let places = Places::new(random, search.pool.expressions().len());
    let draft = places.pool(random, &Draft::of(&search.pool));
    let mut pool = Pool::default();
    draft.nodes.into_iter().for_each(|node| {
        pool.push_node(node).expect("a node of a pool");
    });
    draft.expressions.into_iter().for_each(|expression| {
        pool.push_expression(expression).expect("an expression of a pool");
    });
    let mut identities = search.identities.clone();
    identities.iter_mut().for_each(|identity| places.move_to(identity));
    Search { pool, identities, ..search.clone() }
}

#[cfg(test)]
mod tests {
    use crate::{planned, searched};
    use asked::question::{Answer, Question};
    use judge::run::on_large_stack;
    use plans::question::Given as PlanGiven;
    use searches::question::Given as SearchGiven;

    const SEED: u64 = 3;
    const COUNT: u64 = 1000;

    #[test]
    fn spread_plans_are_accepted_and_large() {
        let mut records = Vec::new();
        for index in 0..COUNT {
            let answer = || {
                let questions = planned::questions(SEED, index)?;
                questions[0].question.ask()
            };
            if let Answer::Given(PlanGiven::Mapped(mapped)) = on_large_stack(answer).unwrap() {
                records.push(mapped.records.len());
            }
        }
        assert!(records.len() as u64 > COUNT / 2, "{:?}", records);
        assert!(records.contains(&4095) || records.contains(&4096), "{:?}", records);
    }

    #[test]
    fn sets_of_spread_searches_have_large_members() {
        let mut members = Vec::new();
        for index in 0..COUNT {
            let answers = || {
                let questions = searched::questions(SEED, index)?;
                questions.iter().map(|asked| asked.question.ask()).collect::<Result<Vec<_>, _>>()
            };
            for answer in on_large_stack(answers).unwrap() {
                if let Answer::Given(SearchGiven::Found(found)) = answer {
                    members.extend(found.set);
                }
            }
        }
        for word in 0..8 {
            assert!(members.iter().any(|member| member / 64 == word), "{:?}", members);
        }
    }
}

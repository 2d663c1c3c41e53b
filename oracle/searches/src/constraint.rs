//! `generate_constraint_polynomial` as a whole, asked of the original.

use crate::contexts;
use crate::search::{ask_search, caught, Found, Search};
use asked::question::Refused;
use asked::text::listed;
use judge::answer::{State, StepBytes};
use judge::hex;
use judge::kinds::Kind;
use judge::literal::Literal;
use judge::pool::{Node, MAX_EXPRESSIONS, MAX_NODES};
use judge::refusals::{COUNTS, DOUBLE_PRIME, FULL};
use judge::script::Command;
use original::constant::set_vc;
use original::starkinfo::{Program, StarkInfo};
use original::starkinfo_codegen as code;
use original::types::{Expression, PIL};
use std::fmt;

/// Numbers of columns have 16 bits.
const MAX_COLUMNS: usize = 1 << 16;

#[derive(Clone, Debug, PartialEq, Eq)]
pub struct Constraint {
    pub search: Search,
    pub n_cm1: u16,
    pub n_cm2: u16,
    /// nCommitments before.
    pub commitments: u16,
    /// The number of the challenge "vc".
    pub vc: u16,
    /// What was done to the caller's context before, and to the second one.
    pub first: Vec<Command>,
    pub second: Vec<Command>,
}

/// The lists of a segment, its counter, and the marks of its context after the build.
#[derive(Clone, Debug, PartialEq, Eq)]
pub struct Built {
    pub first: Vec<StepBytes>,
    pub i: Vec<StepBytes>,
    pub last: Vec<StepBytes>,
    pub state: State,
}

#[derive(Clone, Debug, PartialEq, Eq)]
pub struct Made {
    pub found: Found,
    /// Expression and cm number of each intermediate, in the original's order.
    pub intermediates: Vec<(usize, usize)>,
    /// The number of the constraint expression.
    pub c_exp: usize,
    /// Its nodes, numbered after those of the pool in the order in which it is put together.
    pub nodes: Vec<Node>,
    pub n_cm3: usize,
    pub n_cm4: usize,
    pub qs: Vec<usize>,
    /// nCommitments after.
    pub commitments: usize,
    pub step3: Built,
    pub step42ns: Built,
}

/// Asks the original. After the search's refusals come 9, where the pool with the constraint or a column's
/// number passes its limit, then 11, then generation's. Call it on a large stack.
pub fn ask_constraint(constraint: &Constraint) -> Result<Made, Refused> {
    let found = ask_search(&constraint.search)?;
    let Constraint { n_cm1, n_cm2, commitments, ref search, .. } = *constraint;
    let after = run(constraint)?;
    let before = search.pool.nodes().len();
    let c_exp = search.pool.expressions().len();
    // The constraint is added to the pool before anything that can fail.
    let sums = search.identities.len() - 1 + found.set.len();
    let nodes = nodes(&after.pil.expressions[c_exp], sums, before).map_err(Refused::Not)?;
    let columns = usize::from(commitments) + found.set.len() + found.q;
    if before + nodes.len() > MAX_NODES || c_exp == MAX_EXPRESSIONS || columns > MAX_COLUMNS {
        return Err(Refused::With(FULL));
    }
    if u32::from(commitments) < u32::from(n_cm1) + u32::from(n_cm2) {
        return Err(Refused::With(COUNTS));
    }
    after.made(found, nodes)
}

/// What the original holds after the call, which need not have come to its end.
struct After {
    info: StarkInfo,
    pil: PIL,
    first: code::Context,
    second: code::Context,
    program: Program,
    end: Result<(), Refused>,
}

fn run(constraint: &Constraint) -> Result<After, Refused> {
    set_vc(constraint.vc.into());
    let mut pil = PIL { nCommitments: constraint.commitments.into(), ..constraint.search.pil() };
    let mut info = StarkInfo {
        n_cm1: constraint.n_cm1.into(),
        n_cm2: constraint.n_cm2.into(),
        ..StarkInfo::default()
    };
    let context = |pil: &mut PIL, commands| contexts::after(pil, commands).map_err(Refused::Not);
    let mut first = context(&mut pil, &constraint.first)?;
    let mut second = context(&mut pil, &constraint.second)?;
    let mut program = Program::default();
    let rows = constraint.search.rows();
    let end = caught(|| {
        info.generate_constraint_polynomial(&mut first, &mut second, &mut pil, &rows, &mut program)
    });
    let end = end
        .map_err(|text| Refused::Not(format!("the original panics: {}", text)))
        .and_then(|done| done.map_err(|error| refusal(&error.to_string())));
    Ok(After { info, pil, first, second, program, end })
}

impl After {
    fn made(self, found: Found, nodes: Vec<Node>) -> Result<Made, Refused> {
        let After { info, pil, program, .. } = self;
        self.end?;
        let count = pil.expressions.len();
        agree(&info, &found, count)?;
        let built = |segment: &code::Segment, context: &code::Context| {
            built(segment, contexts::state(context, count)).map_err(Refused::Not)
        };
        Ok(Made {
            intermediates: info.im_exps_list.iter().map(|e| (*e, info.im_exp2cm[e])).collect(),
            found,
            c_exp: info.c_exp,
            nodes,
            n_cm3: info.n_cm3,
            n_cm4: info.n_cm4,
            qs: info.qs,
            commitments: pil.nCommitments,
            step3: built(&program.step3, &self.first)?,
            step42ns: built(&program.step42ns, &self.second)?,
        })
    }
}

/// The original has three spellings of it.
fn refusal(error: &str) -> Refused {
    if error.eq_ignore_ascii_case("double prime") {
        return Refused::With(DOUBLE_PRIME);
    }
    Refused::Not(format!("the original says {}", error))
}

/// The constraint is made with what the search found, and is the last expression.
fn agree(info: &StarkInfo, found: &Found, expressions: usize) -> Result<(), Refused> {
    let agrees = info.im_exps_list == found.set
        && (info.q_deg, info.c_exp + 1) == (found.q, expressions)
        && info.im_exp2cm.len() == found.set.len();
    if !agrees {
        return Err(Refused::Not("the constraint is made with another set".to_string()));
    }
    Ok(())
}

fn built(segment: &code::Segment, state: State) -> Result<Built, String> {
    if segment.tmp_used != state.counter {
        return Err("the original's build moved its counter".to_string());
    }
    let encoded = |list: &[code::Section]| -> Result<Vec<StepBytes>, String> {
        list.iter().map(StepBytes::of).collect()
    };
    let (first, i, last) =
        (encoded(&segment.first)?, encoded(&segment.i)?, encoded(&segment.last)?);
    Ok(Built { first, i, last, state })
}

/// The nodes of a constraint of so many sums vc·c + e, numbered from `start`: those of c first, then vc, the
/// product, those of e, and the sum.
fn nodes(constraint: &Expression, sums: usize, start: usize) -> Result<Vec<Node>, String> {
    let mut nodes = Nodes { start, made: Vec::new() };
    nodes.push_sums(constraint, sums)?;
    Ok(nodes.made)
}

struct Nodes {
    start: usize,
    made: Vec<Node>,
}

impl Nodes {
    fn push_sums(&mut self, sum: &Expression, sums: usize) -> Result<u16, String> {
        if sums == 0 {
            return self.push(sum);
        }
        match (children(sum), children(sum).first().map(children)) {
            ([product, e], Some([vc, c])) => {
                let c = self.push_sums(c, sums - 1)?;
                let vc = self.push(vc)?;
                let product = self.push_own(product, vec![vc, c])?;
                let e = self.push(e)?;
                self.push_own(sum, vec![product, e])
            }
            _ => Err(format!("the original's constraint has no sum where one is due: {:?}", sum)),
        }
    }

    /// Children first, left before right.
    fn push(&mut self, expression: &Expression) -> Result<u16, String> {
        let own = children(expression).iter().map(|child| self.push(child));
        let own = own.collect::<Result<_, _>>()?;
        self.push_own(expression, own)
    }

    fn push_own(&mut self, expression: &Expression, children: Vec<u16>) -> Result<u16, String> {
        let fault = || format!("document 01 has no frame for the original's {:?}", expression);
        let kind = Kind::all().find(|kind| kind.word() == expression.op).ok_or_else(fault)?;
        let literal = match (&expression.value, expression.const_) {
            (Some(text), None) => Some(Literal::from_decimal(text).ok_or_else(fault)?),
            (None, Some(value)) => Some(value.into()),
            (None, None) => None,
            (Some(_), Some(_)) => return Err(fault()),
        };
        let id = u16::try_from(expression.id.unwrap_or(0)).map_err(|_| fault())?;
        if !kind.is_node() || literal.is_some() != kind.has_literal() {
            return Err(fault());
        }
        self.made.push(Node { kind, next: expression.next(), id, children, literal });
        // A number past 16 bits is past the pool's limit, which is found later.
        Ok((self.start + self.made.len() - 1) as u16)
    }
}

fn children(expression: &Expression) -> &[Expression] {
    expression.values.as_deref().unwrap_or(&[])
}

impl fmt::Display for Made {
    fn fmt(&self, f: &mut fmt::Formatter<'_>) -> fmt::Result {
        self.found.fmt(f)?;
        let pairs: Vec<String> =
            self.intermediates.iter().map(|(e, cm)| format!("{}:{}", e, cm)).collect();
        writeln!(f, "im {}", listed(&pairs))?;
        writeln!(f, "c_exp {}", self.c_exp)?;
        for node in &self.nodes {
            writeln!(f, "node {}", hex::encode(&node.frame()))?;
        }
        writeln!(f, "columns {} {} {}", self.n_cm3, self.n_cm4, self.commitments)?;
        writeln!(f, "qs {}", listed(&self.qs))?;
        write_built(f, "step3", &self.step3)?;
        write_built(f, "step42ns", &self.step42ns)
    }
}

fn write_built(f: &mut fmt::Formatter<'_>, name: &str, built: &Built) -> fmt::Result {
    for (list, steps) in [("first", &built.first), ("i", &built.i), ("last", &built.last)] {
        steps.iter().try_for_each(|step| writeln!(f, "{} {} {}", name, list, step))?;
    }
    for line in built.state.to_string().lines() {
        writeln!(f, "{} {}", name, line)?;
    }
    Ok(())
}

#[cfg(test)]
mod tests {
    use super::*;
    use crate::search::fresh_context;
    use crate::surprises::{constraint, cut, search};
    use judge::case::{cm, neg, Tree};
    use judge::run::on_large_stack;

    fn ask(constraint: &Constraint) -> Result<Made, Refused> {
        on_large_stack(|| Ok(ask_constraint(constraint))).unwrap()
    }

    /// A pool of so many expressions.
    fn of_expressions(count: usize) -> Constraint {
        constraint(search(&vec![cm(0); count], &[0], 0))
    }

    #[test]
    fn a_pool_without_room_for_one_expression_is_full() {
        assert!(ask(&of_expressions(MAX_EXPRESSIONS - 1)).is_ok());
        assert_eq!(ask(&of_expressions(MAX_EXPRESSIONS)), Err(Refused::With(FULL)));
    }

    /// The constraint is one exp leaf.
    #[test]
    fn a_pool_without_room_for_its_nodes_is_full() {
        let chain = |nodes| (1..nodes).fold(cm(0), |tree: Tree, _| neg(tree));
        let of_nodes = |nodes| constraint(search(&[cm(0), chain(nodes - 1)], &[0], 0));
        assert!(ask(&of_nodes(MAX_NODES - 1)).is_ok());
        assert_eq!(ask(&of_nodes(MAX_NODES)), Err(Refused::With(FULL)));
    }

    /// Commands cannot make such a context.
    #[test]
    fn a_mark_on_the_constraint_itself_is_a_panic() {
        let search = search(&cut(), &[1], 0);
        let (mut info, mut pil) = (StarkInfo::default(), search.pil());
        let (mut first, mut second) = (fresh_context(), fresh_context());
        second.calculated.insert(("exps", pil.expressions.len()), true);
        let (rows, mut program) = (search.rows(), Program::default());
        let call = || {
            let (first, second, pil) = (&mut first, &mut second, &mut pil);
            info.generate_constraint_polynomial(first, second, pil, &rows, &mut program).is_ok()
        };
        let end = on_large_stack(|| Ok(caught(call)));
        assert_eq!(end, Ok(Err("attempt to subtract with overflow".to_string())));
    }
}

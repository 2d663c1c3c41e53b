//! Cases of scripts, and a short way to write them. The original gives the answers.

use crate::kinds::Kind;
use crate::literal::Literal;
use crate::pool::{Expression, Flags, Node, Pool};
use crate::script::{Asked, Command, Request, Script};
use crate::vectors;

pub type Case = vectors::Case<Script>;

impl Case {
    pub fn of(name: &str, expressions: &[(Tree, Flags)], commands: &[Command]) -> Case {
        Case::new(name, Script { pool: pool(expressions), commands: commands.to_vec() })
    }
}

/// An expression's tree, whose nodes get their numbers when it enters a pool.
#[derive(Clone, Debug)]
pub struct Tree {
    pub kind: Kind,
    pub next: bool,
    pub id: u16,
    pub literal: Option<Literal>,
    pub children: Vec<Tree>,
}

impl Tree {
    /// The same with its next set.
    pub fn next(self) -> Tree {
        Tree { next: true, ..self }
    }

    fn push(&self, pool: &mut Pool) -> u16 {
        let children = self.children.iter().map(|child| child.push(pool)).collect();
        let Tree { kind, next, id, literal, .. } = *self;
        pool.push_node(Node { kind, next, id, children, literal }).expect("an admitted node")
    }
}

/// The pool of these expressions.
pub fn pool(expressions: &[(Tree, Flags)]) -> Pool {
    let mut pool = Pool::default();
    let roots: Vec<u16> = expressions.iter().map(|(tree, _)| tree.push(&mut pool)).collect();
    for (root, &(_, flags)) in roots.into_iter().zip(expressions) {
        pool.push_expression(Expression { root, flags }).expect("an admitted expression");
    }
    pool.check_links().expect("an admitted pool");
    pool
}

/// The pool of these expressions, without flags.
pub fn plain_pool(trees: &[Tree]) -> Pool {
    let expressions: Vec<_> = trees.iter().map(|tree| (tree.clone(), Flags::NONE)).collect();
    pool(&expressions)
}

pub fn leaf(kind: Kind, id: u16) -> Tree {
    Tree { kind, next: false, id, literal: None, children: Vec::new() }
}

pub fn cm(id: u16) -> Tree {
    leaf(Kind::CM, id)
}

pub fn constant(id: u16) -> Tree {
    leaf(Kind::CONST, id)
}

pub fn exp(id: u16) -> Tree {
    leaf(Kind::EXP, id)
}

pub fn number(literal: impl Into<Literal>) -> Tree {
    Tree { literal: Some(literal.into()), ..leaf(Kind::NUMBER, 0) }
}

pub fn operation(kind: Kind, children: Vec<Tree>) -> Tree {
    Tree { children, ..leaf(kind, 0) }
}

pub fn add(a: Tree, b: Tree) -> Tree {
    operation(Kind::ADD, vec![a, b])
}

pub fn sub(a: Tree, b: Tree) -> Tree {
    operation(Kind::SUB, vec![a, b])
}

pub fn mul(a: Tree, b: Tree) -> Tree {
    operation(Kind::MUL, vec![a, b])
}

pub fn muladd(a: Tree, b: Tree, c: Tree) -> Tree {
    operation(Kind::MULADD, vec![a, b, c])
}

pub fn addc(a: Tree, literal: i64) -> Tree {
    Tree { literal: Some(literal.into()), ..operation(Kind::ADDC, vec![a]) }
}

pub fn mulc(a: Tree, literal: i64) -> Tree {
    Tree { literal: Some(literal.into()), ..operation(Kind::MULC, vec![a]) }
}

pub fn neg(a: Tree) -> Tree {
    operation(Kind::NEG, vec![a])
}

pub const BUILD: Command = Command::Build;

pub fn request(expression: u16, prime: bool, muladd: bool) -> Command {
    Command::Request(Request { expression, prime, muladd, asked: None })
}

pub fn plain(expression: u16) -> Command {
    request(expression, false, false)
}

pub fn primed(expression: u16) -> Command {
    request(expression, true, false)
}

pub fn fused(expression: u16) -> Command {
    request(expression, false, true)
}

/// A request, not fused, that asks for a result.
pub fn asking(expression: u16, prime: bool, kind: Kind, id: u16) -> Command {
    let asked = Some(Asked { kind, id });
    Command::Request(Request { expression, prime, muladd: false, asked })
}

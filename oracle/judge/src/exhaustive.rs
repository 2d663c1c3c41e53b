//! Every small tree over a small alphabet, and every small shape that may fuse.

use crate::case::{
    add, addc, cm, exp, fused, leaf, mul, muladd, mulc, neg, number, operation, request, sub, Case,
    Tree, BUILD,
};
use crate::kinds::Kind;
use crate::pool::Flags;

pub fn cases() -> Vec<Case> {
    let trees = [single_leaves(), unary(), unary_twice(), binary(), muladds()].concat();
    let small = trees.iter().flat_map(|tree| [small_case(tree, false), small_case(tree, true)]);
    let fusing = [sums_and_products(), sums_of_operations(), around_a_sum()].concat();
    small.chain(fusing.iter().map(fusing_case)).collect()
}

/// The tree plain and then primed, each with its own build. The keep flag leaves it unmarked by
/// the first build, so that the second request generates (or refuses) it.
fn small_case(tree: &Tree, muladd: bool) -> Case {
    let reads_another = mentions(tree, Kind::EXP);
    let mut expressions = vec![(tree.clone(), Flags::KEEP)];
    if reads_another {
        expressions.push((cm(7), Flags::KEEP));
    }
    let commands = [request(0, false, muladd), BUILD, request(0, true, muladd), BUILD];
    let name = format!("small-{}{}", describe(tree), if muladd { "-fused" } else { "" });
    Case::of(&name, &expressions, &commands)
}

fn fusing_case(tree: &Tree) -> Case {
    let name = format!("fusing-{}", describe(tree));
    Case::of(&name, &[(tree.clone(), Flags::NONE)], &[fused(0), BUILD])
}

fn mentions(tree: &Tree, kind: Kind) -> bool {
    tree.kind == kind || tree.children.iter().any(|child| mentions(child, kind))
}

/// Prefix notation; a child count fixes where an operation ends, so names do not collide.
fn describe(tree: &Tree) -> String {
    let next = if tree.next { "_next" } else { "" };
    let word = format!("{}{}", tree.kind.word().to_lowercase(), next);
    [word].into_iter().chain(tree.children.iter().map(describe)).collect::<Vec<_>>().join("-")
}

/// The leaf of a kind, with an id that tells it from the others; exp reads expression 1.
fn leaf_of(kind: Kind) -> Tree {
    match kind {
        Kind::NUMBER => number(-9),
        Kind::EXP => exp(1),
        _ if kind.has_id() => leaf(kind, u16::from(kind.byte())),
        _ => leaf(kind, 0),
    }
}

fn leaves() -> Vec<Tree> {
    Kind::LEAVES.into_iter().map(leaf_of).collect()
}

fn single_leaves() -> Vec<Tree> {
    leaves().into_iter().flat_map(|tree| [tree.clone(), tree.next()]).collect()
}

const UNARY: [fn(Tree) -> Tree; 3] = [|a| addc(a, -3), |a| mulc(a, 5), neg];
const BINARY: [fn(Tree, Tree) -> Tree; 3] = [add, sub, mul];

fn unary() -> Vec<Tree> {
    let operands = [leaves(), vec![cm(2).next(), exp(1).next()]].concat();
    UNARY.iter().flat_map(|op| operands.iter().cloned().map(op)).collect()
}

fn unary_twice() -> Vec<Tree> {
    let inner = UNARY.iter().map(|op| op(cm(2)));
    inner.flat_map(|tree| UNARY.iter().map(move |op| op(tree.clone()))).collect()
}

fn binary() -> Vec<Tree> {
    let alphabet = [cm(2), cm(3).next(), exp(1), number(4)];
    let mut trees = Vec::new();
    for op in BINARY {
        for a in &alphabet {
            for b in &alphabet {
                trees.push(op(a.clone(), b.clone()));
            }
        }
    }
    trees
}

/// One node more than the rest, being three operands wide: each operand in each place.
fn muladds() -> Vec<Tree> {
    let others = [cm(3).next(), exp(1), number(4)];
    let mut trees = vec![muladd(cm(0), cm(1), cm(2))];
    for other in others {
        trees.push(muladd(other.clone(), cm(1), cm(2)));
        trees.push(muladd(cm(0), other.clone(), cm(2)));
        trees.push(muladd(cm(0), cm(1), other));
    }
    trees
}

/// A shape: an operation over shapes, or a leaf. Its leaves become cm0, cm1, .. from the left.
#[derive(Clone)]
enum Shape {
    Leaf,
    Operation(Kind, Vec<Shape>),
}

impl Shape {
    fn tree(&self, next_leaf: &mut u16) -> Tree {
        match self {
            Shape::Leaf => {
                *next_leaf += 1;
                cm(*next_leaf - 1)
            }
            Shape::Operation(kind, children) => {
                let children = children.iter().map(|child| child.tree(next_leaf)).collect();
                let literal = if kind.has_literal() { Some(6.into()) } else { None };
                Tree { literal, ..operation(*kind, children) }
            }
        }
    }
}

/// Every shape of so many sums and products.
fn shapes(operations: usize) -> Vec<Shape> {
    if operations == 0 {
        return vec![Shape::Leaf];
    }
    let mut all = Vec::new();
    for kind in [Kind::ADD, Kind::MUL] {
        for left in 0..operations {
            for a in shapes(left) {
                for b in shapes(operations - 1 - left) {
                    all.push(Shape::Operation(kind, vec![a.clone(), b]));
                }
            }
        }
    }
    all
}

/// Every tree of two or three sums and products.
fn sums_and_products() -> Vec<Tree> {
    (2..=3).flat_map(shapes).map(|shape| shape.tree(&mut 0)).collect()
}

/// An operation over leaves.
fn flat(kind: Kind) -> Shape {
    Shape::Operation(kind, vec![Shape::Leaf; kind.child_count()])
}

/// A sum of any two operations, where at least one is neither a sum nor a product (those are
/// among the others).
fn sums_of_operations() -> Vec<Tree> {
    let is_other = |kind: Kind| kind != Kind::ADD && kind != Kind::MUL;
    let mut trees = Vec::new();
    for a in Kind::OPERATIONS {
        for b in Kind::OPERATIONS {
            if is_other(a) || is_other(b) {
                trees.push(Shape::Operation(Kind::ADD, vec![flat(a), flat(b)]).tree(&mut 0));
            }
        }
    }
    trees
}

/// A sum that fuses, below each operation and in each place.
fn around_a_sum() -> Vec<Tree> {
    let fusible = Shape::Operation(Kind::ADD, vec![flat(Kind::MUL), Shape::Leaf]);
    let mut trees = Vec::new();
    for kind in Kind::OPERATIONS.into_iter().filter(|&kind| kind != Kind::ADD && kind != Kind::MUL)
    {
        for place in 0..kind.child_count() {
            let mut children = vec![Shape::Leaf; kind.child_count()];
            children[place] = fusible.clone();
            trees.push(Shape::Operation(kind, children).tree(&mut 0));
        }
    }
    trees
}

#[cfg(test)]
mod tests {
    use super::*;

    #[test]
    fn shapes_are_counted_by_catalan_and_powers_of_two() {
        assert_eq!([0, 1, 2, 3].map(|n| shapes(n).len()), [1, 2, 2 * 4, 5 * 8]);
    }
}

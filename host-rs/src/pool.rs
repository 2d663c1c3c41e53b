//! Pools: nodes and expressions in the order of their numbers, and requests, written as frames.

use crate::frames::Frames;
use crate::kinds::NodeKind;
use enonkasse_literal::Literal;

/// The number of a node in its pool.
#[derive(Clone, Copy, Debug, PartialEq, Eq, Hash, PartialOrd, Ord)]
pub struct NodeId(pub u16);

/// The number of an expression in its pool.
#[derive(Clone, Copy, Debug, PartialEq, Eq, Hash, PartialOrd, Ord)]
pub struct ExpressionId(pub u16);

/// A node as its frame has it.
#[derive(Clone, Debug, PartialEq, Eq, Hash)]
pub struct Node {
    /// What it is.
    pub kind: NodeKind,
    /// Whether a leaf reads the next row.
    pub next: bool,
    /// The leaf's number; 0 for operations, numbers and the x kinds.
    pub id: u16,
    /// The children, left to right: earlier nodes that nothing else uses.
    pub children: Vec<NodeId>,
    /// That of a number, addc or mulc; of another kind it is not written, and none is written as 0.
    pub literal: Option<Literal>,
}

impl Node {
    /// A leaf of this row.
    pub fn leaf(kind: NodeKind, id: u16) -> Node {
        Node { kind, next: false, id, children: Vec::new(), literal: None }
    }

    /// An operation on children.
    pub fn operation(kind: NodeKind, children: &[NodeId]) -> Node {
        Node { children: children.to_vec(), ..Node::leaf(kind, 0) }
    }

    fn frame(&self) -> Vec<u8> {
        let count = u8::try_from(self.children.len()).expect("at most 255 children");
        let mut frame = vec![0x01, self.kind.byte(), u8::from(self.next)];
        frame.extend(self.id.to_be_bytes());
        frame.push(count);
        self.children.iter().for_each(|child| frame.extend(child.0.to_be_bytes()));
        if self.kind.has_literal() {
            frame.extend(self.literal.unwrap_or_default().bytes());
        }
        frame
    }
}

/// What an expression is kept for.
#[derive(Clone, Copy, Debug, Default, PartialEq, Eq, Hash)]
pub struct Flags {
    /// It is kept.
    pub keep: bool,
    /// It is kept in the extended domain.
    pub keep2ns: bool,
    /// It belongs to a quotient.
    pub id_q: bool,
}

impl Flags {
    /// No flag.
    pub const NONE: Flags = Flags { keep: false, keep2ns: false, id_q: false };

    fn byte(self) -> u8 {
        u8::from(self.keep) | u8::from(self.keep2ns) << 1 | u8::from(self.id_q) << 2
    }
}

/// A request for an expression's value.
#[derive(Clone, Copy, Debug, PartialEq, Eq, Hash)]
pub struct Request {
    /// The expression.
    pub expression: ExpressionId,
    /// Whether it is asked for at the next row.
    pub prime: bool,
    /// Whether its sums of products are fused.
    pub muladd: bool,
}

impl Request {
    /// At this row, not fused.
    pub fn of(expression: ExpressionId) -> Request {
        Request { expression, prime: false, muladd: false }
    }

    /// The same at the next row.
    #[must_use]
    pub fn primed(self) -> Request {
        Request { prime: true, ..self }
    }

    /// The same, fused.
    #[must_use]
    pub fn fused(self) -> Request {
        Request { muladd: true, ..self }
    }

    pub(crate) fn frame(self) -> Vec<u8> {
        let [high, low] = self.expression.0.to_be_bytes();
        vec![0x03, high, low, u8::from(self.prime), u8::from(self.muladd)]
    }
}

/// A builder of pools. It checks nothing: what is not an admitted pool is refused by the calls that
/// read it. A pool has at most 4,096 nodes and 512 expressions.
#[derive(Clone, Debug, Default, PartialEq, Eq)]
pub struct Pool {
    nodes: Vec<Node>,
    expressions: Vec<(NodeId, Flags)>,
}

/// Far past a pool's limits, where every call is refused, numbers stay the same.
fn number(count: usize) -> u16 {
    u16::try_from(count).unwrap_or(u16::MAX)
}

impl Pool {
    /// An empty pool.
    pub fn new() -> Pool {
        Pool::default()
    }

    /// The nodes by their numbers.
    pub fn nodes(&self) -> &[Node] {
        &self.nodes
    }

    /// Roots and flags of the expressions by their numbers.
    pub fn expressions(&self) -> &[(NodeId, Flags)] {
        &self.expressions
    }

    /// Adds a node as it is.
    pub fn node(&mut self, node: Node) -> NodeId {
        let id = NodeId(number(self.nodes.len()));
        self.nodes.push(node);
        id
    }

    /// Adds a leaf that reads this row.
    pub fn leaf(&mut self, kind: NodeKind, id: u16) -> NodeId {
        self.node(Node::leaf(kind, id))
    }

    /// Adds a leaf that reads the next row.
    pub fn leaf_next(&mut self, kind: NodeKind, id: u16) -> NodeId {
        self.node(Node { next: true, ..Node::leaf(kind, id) })
    }

    /// Adds a cm leaf of this row.
    pub fn cm(&mut self, id: u16) -> NodeId {
        self.leaf(NodeKind::Cm, id)
    }

    /// Adds a const leaf of this row.
    pub fn constant(&mut self, id: u16) -> NodeId {
        self.leaf(NodeKind::Const, id)
    }

    /// Adds an exp leaf of this row.
    pub fn exp(&mut self, expression: ExpressionId) -> NodeId {
        self.leaf(NodeKind::Exp, expression.0)
    }

    /// Adds a number.
    pub fn number(&mut self, literal: impl Into<Literal>) -> NodeId {
        self.with_literal(NodeKind::Number, &[], literal.into())
    }

    /// Adds `a + b`.
    pub fn add(&mut self, a: NodeId, b: NodeId) -> NodeId {
        self.node(Node::operation(NodeKind::Add, &[a, b]))
    }

    /// Adds `a - b`.
    pub fn sub(&mut self, a: NodeId, b: NodeId) -> NodeId {
        self.node(Node::operation(NodeKind::Sub, &[a, b]))
    }

    /// Adds `a·b`.
    pub fn mul(&mut self, a: NodeId, b: NodeId) -> NodeId {
        self.node(Node::operation(NodeKind::Mul, &[a, b]))
    }

    /// Adds `a·b + c`.
    pub fn muladd(&mut self, a: NodeId, b: NodeId, c: NodeId) -> NodeId {
        self.node(Node::operation(NodeKind::MulAdd, &[a, b, c]))
    }

    /// Adds `a` plus a literal.
    pub fn addc(&mut self, a: NodeId, literal: i64) -> NodeId {
        self.with_literal(NodeKind::AddC, &[a], literal.into())
    }

    /// Adds `a` times a literal.
    pub fn mulc(&mut self, a: NodeId, literal: i64) -> NodeId {
        self.with_literal(NodeKind::MulC, &[a], literal.into())
    }

    /// Adds `-a`.
    pub fn neg(&mut self, a: NodeId) -> NodeId {
        self.node(Node::operation(NodeKind::Neg, &[a]))
    }

    fn with_literal(&mut self, kind: NodeKind, children: &[NodeId], literal: Literal) -> NodeId {
        self.node(Node { literal: Some(literal), ..Node::operation(kind, children) })
    }

    /// Adds an expression of a tree.
    pub fn expression(&mut self, root: NodeId, flags: Flags) -> ExpressionId {
        let id = ExpressionId(number(self.expressions.len()));
        self.expressions.push((root, flags));
        id
    }

    /// The frames of the nodes, then those of the expressions.
    ///
    /// # Panics
    ///
    /// Where a node has more than 255 children, which no frame can say.
    pub fn frames(&self) -> Frames {
        let mut frames = Frames::new();
        self.nodes.iter().for_each(|node| frames.push(&node.frame()));
        for (root, flags) in &self.expressions {
            let [high, low] = root.0.to_be_bytes();
            frames.push(&[0x02, high, low, flags.byte()]);
        }
        frames
    }
}

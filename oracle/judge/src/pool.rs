//! Pools: nodes, expressions, their frames, and the admission of document 01.
//!
//! The original has no notion of an inadmissible pool (it would recurse without end, or panic), so
//! the judge takes admitted pools only.

use crate::hex::Reader;
use crate::kinds::Kind;
use crate::literal::{self, Literal};

pub const NODE_FRAME: u8 = 0x01;
pub const EXPRESSION_FRAME: u8 = 0x02;

pub const MAX_NODES: usize = 4096;
pub const MAX_EXPRESSIONS: usize = 512;

#[derive(Clone, Debug, PartialEq, Eq)]
pub struct Node {
    pub kind: Kind,
    pub next: bool,
    pub id: u16,
    pub children: Vec<u16>,
    pub literal: Option<Literal>,
}

#[derive(Clone, Copy, Debug, Default, PartialEq, Eq)]
pub struct Flags(u8);

impl Flags {
    pub const NONE: Flags = Flags(0);
    pub const KEEP: Flags = Flags(1);
    pub const KEEP2NS: Flags = Flags(2);
    pub const ID_Q: Flags = Flags(4);
    const ALL: u8 = 7;

    pub fn from_byte(byte: u8) -> Option<Flags> {
        if byte > Flags::ALL {
            return None;
        }
        Some(Flags(byte))
    }

    pub fn byte(self) -> u8 {
        self.0
    }

    pub fn has(self, flag: Flags) -> bool {
        self.0 & flag.0 != 0
    }
}

#[derive(Clone, Copy, Debug, PartialEq, Eq)]
pub struct Expression {
    pub root: u16,
    pub flags: Flags,
}

impl Node {
    /// Reads what follows the frame's first byte.
    pub fn read(mut reader: Reader<'_>) -> Result<Node, String> {
        let byte = reader.u8()?;
        let kind = Kind::from_byte(byte)
            .filter(|kind| kind.is_node())
            .ok_or_else(|| format!("no node has kind {:02x}", byte))?;
        let next = reader.bit("next")?;
        let id = reader.u16()?;
        let count = reader.u8()?;
        let children = (0..count).map(|_| reader.u16()).collect::<Result<_, _>>()?;
        let literal = if kind.has_literal() { Some(literal::read(&mut reader)?) } else { None };
        reader.end()?;
        Ok(Node { kind, next, id, children, literal })
    }

    pub fn frame(&self) -> Vec<u8> {
        let mut bytes = vec![NODE_FRAME, self.kind.byte(), u8::from(self.next)];
        bytes.extend(self.id.to_be_bytes());
        bytes.push(self.children.len() as u8);
        bytes.extend(self.children.iter().flat_map(|child| child.to_be_bytes()));
        if let Some(literal) = self.literal {
            bytes.extend(literal.bytes());
        }
        bytes
    }

    /// Whether the frame has as many children as its kind.
    pub fn has_its_children(&self) -> bool {
        self.children.len() == self.kind.child_count()
    }

    fn check(&self) -> Result<(), String> {
        let word = self.kind.word();
        if self.id != 0 && !self.kind.has_id() {
            return Err(format!("{} has no id, so it is 0", word));
        }
        if !self.has_its_children() {
            return Err(format!("{} has {} children", word, self.kind.child_count()));
        }
        let in_range = |literal: Literal| self.kind == Kind::NUMBER || literal.as_i64().is_some();
        match self.literal {
            Some(literal) if !in_range(literal) => Err(format!("{} takes an i64", word)),
            _ => Ok(()),
        }
    }
}

impl Expression {
    /// Reads what follows the frame's first byte.
    pub fn read(mut reader: Reader<'_>) -> Result<Expression, String> {
        let root = reader.u16()?;
        let byte = reader.u8()?;
        reader.end()?;
        let flags = Flags::from_byte(byte).ok_or_else(|| "flags are at most 7".to_string())?;
        Ok(Expression { root, flags })
    }

    pub fn frame(&self) -> Vec<u8> {
        let mut bytes = vec![EXPRESSION_FRAME];
        bytes.extend(self.root.to_be_bytes());
        bytes.push(self.flags.byte());
        bytes
    }
}

/// A fault that only the whole pool shows, and the node to blame.
#[derive(Debug, PartialEq, Eq)]
pub struct LinkFault {
    pub node: usize,
    pub text: String,
}

#[derive(Clone, Debug, Default, PartialEq, Eq)]
pub struct Pool {
    nodes: Vec<Node>,
    expressions: Vec<Expression>,
    used: Vec<bool>,
}

impl Pool {
    pub fn nodes(&self) -> &[Node] {
        &self.nodes
    }

    pub fn expressions(&self) -> &[Expression] {
        &self.expressions
    }

    pub fn push_node(&mut self, node: Node) -> Result<u16, String> {
        if self.nodes.len() == MAX_NODES {
            return Err(format!("a pool has at most {} nodes", MAX_NODES));
        }
        node.check()?;
        for &child in &node.children {
            self.take(child)?;
        }
        self.nodes.push(node);
        self.used.push(false);
        Ok(self.nodes.len() as u16 - 1)
    }

    pub fn push_expression(&mut self, expression: Expression) -> Result<u16, String> {
        if self.expressions.len() == MAX_EXPRESSIONS {
            return Err(format!("a pool has at most {} expressions", MAX_EXPRESSIONS));
        }
        self.take(expression.root)?;
        self.expressions.push(expression);
        Ok(self.expressions.len() as u16 - 1)
    }

    /// Marks a node as used: it must stand before its user, and have no other.
    fn take(&mut self, node: u16) -> Result<(), String> {
        match self.used.get_mut(usize::from(node)) {
            None => Err(format!("node {} does not come earlier", node)),
            Some(true) => Err(format!("node {} is used twice", node)),
            Some(used) => {
                *used = true;
                Ok(())
            }
        }
    }

    /// What is left of admission once all frames are there: exp leaves name expressions of the
    /// pool, and lead into no cycle.
    pub fn check_links(&self) -> Result<(), LinkFault> {
        let owners = owners(&self.nodes, &self.expressions);
        let mut uses = vec![Vec::new(); self.expressions.len()];
        for (node, leaf) in self.nodes.iter().enumerate().filter(|(_, n)| n.kind == Kind::EXP) {
            if usize::from(leaf.id) >= self.expressions.len() {
                let text = format!("there is no expression {}", leaf.id);
                return Err(LinkFault { node, text });
            }
            if let Some(owner) = owners[node] {
                uses[owner].push((usize::from(leaf.id), node));
            }
        }
        match leaf_into_cycle(&uses) {
            Some(node) => Err(LinkFault { node, text: "exp leaves form a cycle".to_string() }),
            None => Ok(()),
        }
    }
}

/// The expression that each node stands in, if any.
pub fn owners(nodes: &[Node], expressions: &[Expression]) -> Vec<Option<usize>> {
    let mut owners = vec![None; nodes.len()];
    for (number, expression) in expressions.iter().enumerate() {
        owners[usize::from(expression.root)] = Some(number);
    }
    // Children come before their parents, so this way every parent is settled first.
    for (node, parent) in nodes.iter().enumerate().rev() {
        for &child in &parent.children {
            owners[usize::from(child)] = owners[node];
        }
    }
    owners
}

/// Each expression's uses: the expression used and the leaf that does. Settles expressions whose
/// uses are all settled until no more can be; a leaf of one that is left, leading to another that
/// is left, is then named.
pub fn leaf_into_cycle(uses: &[Vec<(usize, usize)>]) -> Option<usize> {
    let mut settled = vec![false; uses.len()];
    loop {
        let ready = |e: &usize| !settled[*e] && uses[*e].iter().all(|&(used, _)| settled[used]);
        match (0..uses.len()).find(ready) {
            Some(expression) => settled[expression] = true,
            None => break,
        }
    }
    let left = (0..uses.len()).find(|&expression| !settled[expression])?;
    uses[left].iter().find(|&&(used, _)| !settled[used]).map(|&(_, leaf)| leaf)
}

//! Makes a script smaller while it still shows something.

use crate::kinds::Kind;
use crate::pool::{Expression, Node, Pool};
use crate::script::{Command, Script};

/// How often `shows` is asked at most.
const TRIES: usize = 3000;

/// Drops requests, then expressions, then makes trees smaller, as long as something can be left
/// out of what still shows.
pub fn shrink(script: &Script, shows: impl FnMut(&Script) -> bool) -> Script {
    let mut search = Search { best: script.clone(), left: TRIES, shows };
    loop {
        let before = search.best.clone();
        search.drop_requests();
        search.drop_expressions();
        search.cut_nodes();
        if search.best == before || search.left == 0 {
            return search.best;
        }
    }
}

struct Search<F> {
    best: Script,
    left: usize,
    shows: F,
}

impl<F: FnMut(&Script) -> bool> Search<F> {
    /// Keeps a candidate that is still admitted and still shows.
    fn keeps(&mut self, candidate: Option<Script>) -> bool {
        match candidate {
            Some(script) if self.left > 0 => {
                self.left -= 1;
                let kept = (self.shows)(&script);
                if kept {
                    self.best = script;
                }
                kept
            }
            _ => false,
        }
    }

    /// In pieces of half of them, of a quarter, and so on to one.
    fn drop_requests(&mut self) {
        let mut piece = self.best.commands.len();
        while piece > 0 {
            let mut at = 0;
            while at < self.best.commands.len() {
                let mut script = self.best.clone();
                let end = (at + piece).min(script.commands.len());
                script.commands.drain(at..end);
                if !self.keeps(Some(script)) {
                    at += piece;
                }
            }
            piece /= 2;
        }
    }

    fn drop_expressions(&mut self) {
        for expression in (0..self.best.pool.expressions().len()).rev() {
            let candidate = without_expression(&self.best, expression as u16);
            self.keeps(candidate);
        }
    }

    /// Puts a bare cm0 in the place of a node, or one of its children; large trees first.
    fn cut_nodes(&mut self) {
        for number in (0..self.best.pool.nodes().len()).rev() {
            // A cut leaves fewer nodes.
            let children = match self.best.pool.nodes().get(number) {
                Some(node) if *node != bare() => node.children.clone(),
                _ => continue,
            };
            let instead = [None].into_iter().chain(children.into_iter().map(Some));
            for child in instead {
                let candidate = with_instead(&self.best, number, child);
                if self.keeps(candidate) {
                    break;
                }
            }
        }
    }
}

/// The script with a child of a node in the node's place, or a bare cm0.
fn with_instead(script: &Script, number: usize, child: Option<u16>) -> Option<Script> {
    let mut nodes = script.pool.nodes().to_vec();
    nodes[number] = match child {
        None => bare(),
        Some(child) => std::mem::replace(&mut nodes[usize::from(child)], bare()),
    };
    admitted(&nodes, script.pool.expressions(), script.commands.clone())
}

fn bare() -> Node {
    Node { kind: Kind::CM, next: false, id: 0, children: Vec::new(), literal: None }
}

/// The script without an expression and its requests; leaves that read it become cm0.
fn without_expression(script: &Script, gone: u16) -> Option<Script> {
    let renumber = |number: &mut u16| *number -= u16::from(*number > gone);
    let mut nodes = script.pool.nodes().to_vec();
    for node in nodes.iter_mut().filter(|node| node.kind == Kind::EXP) {
        match node.id == gone {
            true => *node = bare(),
            false => renumber(&mut node.id),
        }
    }
    let mut expressions = script.pool.expressions().to_vec();
    expressions.remove(usize::from(gone));
    let mut commands = script.commands.clone();
    commands.retain(|command| !matches!(command, Command::Request(r) if r.expression == gone));
    for command in &mut commands {
        if let Command::Request(request) = command {
            renumber(&mut request.expression);
        }
    }
    admitted(&nodes, &expressions, commands)
}

/// The script of these parts without the nodes that no expression has.
fn admitted(nodes: &[Node], expressions: &[Expression], commands: Vec<Command>) -> Option<Script> {
    let owners = crate::pool::owners(nodes, expressions);
    let mut places = vec![0; nodes.len()];
    let mut pool = Pool::default();
    for (number, node) in nodes.iter().enumerate().filter(|(n, _)| owners[*n].is_some()) {
        let children = node.children.iter().map(|&child| places[usize::from(child)]).collect();
        places[number] = pool.push_node(Node { children, ..node.clone() }).ok()?;
    }
    for expression in expressions {
        let root = places[usize::from(expression.root)];
        pool.push_expression(Expression { root, ..*expression }).ok()?;
    }
    pool.check_links().ok()?;
    Some(Script { pool, commands })
}

#[cfg(test)]
mod tests {
    use super::*;
    use crate::random;

    fn has(script: &Script, kind: Kind) -> bool {
        script.pool.nodes().iter().any(|node| node.kind == kind)
    }

    #[test]
    fn what_shows_is_kept_and_the_rest_goes() {
        let shows = |s: &Script| has(s, Kind::MULADD) && s.requests().any(|r| r.prime);
        let found = (0..3000).map(|index| random::whole_run(5, index)).find(shows);
        let small = shrink(&found.expect("a pool with a muladd"), shows);
        assert!(shows(&small));
        assert_eq!(small.pool.nodes().len(), 4);
        assert_eq!(small.pool.expressions().len(), 1);
        assert_eq!(small.commands.len(), 1);
    }

    #[test]
    fn leaves_are_renumbered() {
        let text = "011000000000\n011000000000\n011200000000\n011200000100\n\
                    02000000\n02000100\n02000200\n02000300\n0300000000\n0300030000\n";
        let script = Script::from_frames(text).unwrap();
        let expected = "011000000000\n011000000000\n011200000000\n\
                        02000000\n02000100\n02000200\n0300020000\n";
        assert_eq!(without_expression(&script, 0).unwrap().frames(), expected);
    }
}

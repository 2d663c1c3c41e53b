//! Random cases: admitted pools with command sequences, or with the requests of a whole run. They
//! are the same for the same seed everywhere.

use crate::case::{asking, request, Case, BUILD};
use crate::kinds::Kind;
use crate::literal::Literal;
use crate::pool::{self, Expression, Flags, Node, Pool, MAX_EXPRESSIONS, MAX_NODES};
use crate::script::{Command, Script, MAX_REQUESTS};

/// SplitMix64.
#[derive(Clone, Debug)]
pub struct Random(u64);

impl Random {
    /// A stream of its own for each index, so that a case does not depend on how many come first.
    pub fn new(seed: u64, index: u64) -> Random {
        let mut of_seed = Random(seed);
        Random(of_seed.draw() ^ Random(index).draw())
    }

    pub fn draw(&mut self) -> u64 {
        self.0 = self.0.wrapping_add(0x9e37_79b9_7f4a_7c15);
        let z = (self.0 ^ (self.0 >> 30)).wrapping_mul(0xbf58_476d_1ce4_e5b9);
        let z = (z ^ (z >> 27)).wrapping_mul(0x94d0_49bb_1331_11eb);
        z ^ (z >> 31)
    }

    pub fn below(&mut self, limit: usize) -> usize {
        (self.draw() % limit as u64) as usize
    }

    pub fn between(&mut self, low: usize, high: usize) -> usize {
        low + self.below(high - low + 1)
    }

    pub fn chance(&mut self, percent: usize) -> bool {
        self.below(100) < percent
    }

    pub fn one_of(&mut self, many: usize) -> bool {
        self.below(many) == 0
    }

    pub fn pick<T: Copy>(&mut self, from: &[T]) -> T {
        from[self.below(from.len())]
    }

    pub fn take<T>(&mut self, from: &mut Vec<T>) -> T {
        let index = self.below(from.len());
        from.swap_remove(index)
    }
}

/// Bounds of a pool and of the commands asked of it.
#[derive(Clone, Copy)]
struct Size {
    nodes: (usize, usize),
    expressions: (usize, usize),
    commands: (usize, usize),
    /// One leaf of so many has next: where many have, every primed request is refused.
    next_every: usize,
    /// Of a hundred nodes so many are operations, once two are open: more make trees deeper.
    operations: usize,
    /// Of a hundred exp leaves so many read the expression before their own in the order of
    /// reading; the others any earlier one. More make longer chains of dependencies.
    chained: usize,
}

const SMALL: Size = Size {
    nodes: (1, 12),
    expressions: (1, 5),
    commands: (1, 6),
    next_every: 8,
    operations: 50,
    chained: 0,
};
const LARGE: Size =
    Size { nodes: (40, 100), expressions: (3, 12), commands: (3, 10), next_every: 60, ..SMALL };

/// Sizes of whole runs only.
const TINY: Size = Size { nodes: (0, 3), expressions: (0, 2), commands: (0, 3), ..SMALL };
const HUNDREDS: Size =
    Size { nodes: (200, 900), expressions: (3, 120), commands: (3, 200), next_every: 900, ..SMALL };
/// Full in every respect.
const WIDE: Size = Size {
    nodes: (MAX_NODES, MAX_NODES),
    expressions: (MAX_EXPRESSIONS, MAX_EXPRESSIONS),
    commands: (MAX_REQUESTS, MAX_REQUESTS),
    next_every: MAX_NODES,
    operations: 44,
    chained: 0,
};
/// As many nodes in few trees, which are then some thousand nodes deep.
const DEEP: Size = Size { expressions: (1, 6), commands: (1, 20), operations: 65, ..WIDE };

/// One case of so many is a large one.
const LARGE_EVERY: u64 = 25;

/// The case of this seed and index; of so many nodes, if that is said.
pub fn case(seed: u64, index: u64, nodes: Option<usize>) -> Case {
    let size = match nodes {
        Some(nodes) => of_nodes(nodes),
        None if index % LARGE_EVERY == LARGE_EVERY - 1 => LARGE,
        None => SMALL,
    };
    let random = &mut Random::new(seed, index);
    let pool = random_pool(random, size);
    let commands = random_commands(random, size, pool.expressions().len());
    let name = format!("random-{}-{:03}", seed, index);
    Case::new(&name, Script { pool, commands })
}

/// An admitted pool of so many nodes, in up to so many expressions.
pub fn pool_of(random: &mut Random, nodes: usize, expressions: usize) -> Pool {
    random_pool(random, Size { expressions: (1, expressions), ..of_nodes(nodes) })
}

fn of_nodes(nodes: usize) -> Size {
    let nodes = nodes.clamp(1, MAX_NODES);
    let most = (nodes / 8).clamp(1, MAX_EXPRESSIONS);
    Size {
        nodes: (nodes, nodes),
        expressions: (1, most),
        commands: (1, 2 * most + 6),
        next_every: nodes.max(SMALL.next_every),
        ..SMALL
    }
}

/// The whole run of this seed and index: a pool and requests, for the program `steps`.
pub fn whole_run(seed: u64, index: u64) -> Script {
    let random = &mut Random::new(seed, index);
    let size = Size { chained: random.pick(&[0, 0, 50, 95]), ..run_size(index) };
    let pool = random_pool(random, size);
    let commands = random_requests(random, size, pool.expressions().len());
    Script { pool, commands }
}

/// Of a thousand runs one is as large as can be; of a hundred one has hundreds of nodes.
fn run_size(index: u64) -> Size {
    match index % 2000 {
        999 => WIDE,
        1999 => DEEP,
        i if i % 100 == 99 => HUNDREDS,
        i if i % 10 == 9 => LARGE,
        i if i % 10 == 5 => TINY,
        _ => SMALL,
    }
}

fn random_pool(random: &mut Random, size: Size) -> Pool {
    let (low, high) = size.nodes;
    // The larger of two draws: small pools have little to show.
    let wanted = random.between(low, high).max(random.between(low, high));
    let (low, high) = size.expressions;
    let roots = random.between(low, high.min(wanted / 3).max(low));
    let (mut nodes, open) = random_nodes(random, wanted, roots, size);
    let expressions = random_expressions(random, open, roots);
    link(random, &mut nodes, &expressions, size.chained);
    let mut pool = Pool::default();
    for node in nodes {
        pool.push_node(node).expect("an admitted node");
    }
    for expression in expressions {
        pool.push_expression(expression).expect("an admitted expression");
    }
    pool.check_links().expect("an admitted pool");
    pool
}

/// Nodes in order, and those of them that no other uses. exp leaves do not know their expression.
fn random_nodes(
    random: &mut Random,
    wanted: usize,
    roots: usize,
    size: Size,
) -> (Vec<Node>, Vec<u16>) {
    let mut nodes = Vec::new();
    let mut open = Vec::new();
    while nodes.len() < wanted {
        // Towards the end operations close what is open beyond the roots.
        let pressing = open.len() > roots && open.len() - roots >= wanted - nodes.len();
        let percent = [0, 15, size.operations][open.len().min(2)];
        let kind = if pressing || random.chance(percent) {
            random_operation(random, open.len())
        } else {
            random_leaf(random)
        };
        let children = random_children(random, kind, &nodes, &mut open);
        open.push(nodes.len() as u16);
        // next on an operation is admitted and means nothing.
        let next = random.one_of(if kind.is_operation() { 20 } else { size.next_every });
        nodes.push(Node { next, ..random_node(random, kind, children) });
    }
    (nodes, open)
}

/// Takes the children of a new node. For the sake of fusing, sums prefer a product.
fn random_children(
    random: &mut Random,
    kind: Kind,
    nodes: &[Node],
    open: &mut Vec<u16>,
) -> Vec<u16> {
    let is_product = |&child: &u16| nodes[usize::from(child)].kind == Kind::MUL;
    match open.iter().position(is_product) {
        Some(index) if kind == Kind::ADD && random.chance(60) => {
            let product = open.swap_remove(index);
            let other = random.take(open);
            if random.chance(50) {
                vec![product, other]
            } else {
                vec![other, product]
            }
        }
        _ => (0..kind.child_count()).map(|_| random.take(open)).collect(),
    }
}

fn random_node(random: &mut Random, kind: Kind, children: Vec<u16>) -> Node {
    let id = if kind.has_id() { random_id(random) } else { 0 };
    let literal = match kind {
        Kind::NUMBER => Some(random_literal(random)),
        Kind::ADDC | Kind::MULC => Some(random_i64(random).into()),
        _ => None,
    };
    Node { kind, next: false, id, children, literal }
}

/// Sums and products come more often than the rest.
fn random_operation(random: &mut Random, open: usize) -> Kind {
    let unary = [Kind::ADDC, Kind::MULC, Kind::NEG];
    let binary = [Kind::ADD, Kind::MUL, Kind::ADD, Kind::MUL, Kind::SUB];
    match open {
        1 => random.pick(&unary),
        _ if random.chance(20) => random.pick(&unary),
        3.. if random.chance(10) => Kind::MULADD,
        _ => random.pick(&binary),
    }
}

fn random_leaf(random: &mut Random) -> Kind {
    let frequent = [Kind::CM, Kind::CONST, Kind::EXP, Kind::EXP];
    if random.chance(60) {
        random.pick(&frequent)
    } else {
        random.pick(&Kind::LEAVES)
    }
}

fn random_id(random: &mut Random) -> u16 {
    random.pick(&[0, 0, 1, 1, 2, 3, 256, u16::MAX])
}

fn random_literal(random: &mut Random) -> Literal {
    let edges = [0, 1, 2, i64::MAX as u64, 1 << 63, u64::MAX];
    let magnitude = if random.chance(70) { random.pick(&edges) } else { random.draw() };
    let minus = magnitude != 0 && random.chance(50);
    Literal::new(minus, magnitude).expect("not minus zero")
}

fn random_i64(random: &mut Random) -> i64 {
    let edges = [0, 1, -1, 2, i64::MAX, i64::MIN];
    if random.chance(70) {
        random.pick(&edges)
    } else {
        random.draw() as i64
    }
}

/// Some of the open nodes as roots; the others are left unused.
fn random_expressions(random: &mut Random, mut open: Vec<u16>, roots: usize) -> Vec<Expression> {
    (0..roots.min(open.len()))
        .map(|_| Expression { root: random.take(&mut open), flags: random_flags(random) })
        .collect()
}

fn random_flags(random: &mut Random) -> Flags {
    if random.chance(45) {
        return Flags::NONE;
    }
    Flags::from_byte(random.below(8) as u8).expect("flags")
}

/// Lets exp leaves name expressions, without a cycle: a shuffled order of the expressions is
/// chosen, and each leaf reads one that comes before its own. Where none does it becomes a cm.
fn link(random: &mut Random, nodes: &mut [Node], expressions: &[Expression], chained: usize) {
    let owners = pool::owners(nodes, expressions);
    let mut numbers: Vec<u16> = (0..expressions.len() as u16).collect();
    let order: Vec<u16> = (0..numbers.len()).map(|_| random.take(&mut numbers)).collect();
    for (node, owner) in nodes.iter_mut().zip(owners).filter(|(node, _)| node.kind == Kind::EXP) {
        // An unused node may name any.
        let is_owner = |&number: &u16| owner == Some(usize::from(number));
        let readable = &order[..order.iter().position(is_owner).unwrap_or(order.len())];
        match readable.last() {
            None => node.kind = Kind::CM,
            Some(&last) if chained > 0 && random.chance(chained) => node.id = last,
            Some(_) => node.id = random.pick(readable),
        }
    }
}

fn random_commands(random: &mut Random, size: Size, expressions: usize) -> Vec<Command> {
    let (low, high) = size.commands;
    let count = random.between(low, high);
    let mut commands = Vec::new();
    while commands.len() < count {
        if random.chance(15) {
            commands.push(BUILD);
            continue;
        }
        let expression = random_expression(random, expressions);
        let prime = random.chance(30);
        let muladd = random.chance(60);
        if random.chance(10) {
            commands.push(random_asking(random, expression, prime));
            continue;
        }
        commands.push(request(expression, prime, muladd));
        // Lists differ where an expression stands both plain and primed.
        if random.chance(35) {
            commands.push(request(expression, !prime, muladd));
        }
    }
    commands.push(BUILD);
    commands
}

/// Requests, some of them again, and one run in ten with one that is not there.
fn random_requests(random: &mut Random, size: Size, expressions: usize) -> Vec<Command> {
    let (low, high) = size.commands;
    let count = random.between(low, high);
    let primes = random.pick(&[0, 20, 20, 50]);
    let mut requests = Vec::new();
    for _ in 0..count {
        let expression = match expressions {
            0 => 0,
            _ => random.below(expressions) as u16,
        };
        let (prime, muladd) = (random.chance(primes), random.chance(60));
        let again = !requests.is_empty() && random.chance(15);
        requests.push(match again {
            true => random.pick(&requests),
            false => request(expression, prime, muladd),
        });
    }
    if !requests.is_empty() && random.one_of(10) {
        let stray = random.pick(&[expressions as u16, MAX_EXPRESSIONS as u16, u16::MAX]);
        let place = random.below(requests.len());
        requests[place] = request(stray.max(expressions as u16), random.chance(50), false);
    }
    requests
}

fn random_expression(random: &mut Random, expressions: usize) -> u16 {
    if random.chance(1) {
        return random.pick(&[expressions as u16, u16::MAX]);
    }
    random.below(expressions) as u16
}

fn random_asking(random: &mut Random, expression: u16, prime: bool) -> Command {
    let kinds: Vec<Kind> = Kind::results().collect();
    let kind = random.pick(&kinds);
    let id = random_id(random);
    asking(expression, prime, kind, id)
}

#[cfg(test)]
mod tests {
    use super::*;
    use std::collections::HashSet;

    #[test]
    fn a_case_depends_on_its_seed_and_index_only() {
        let text = |seed, index| case(seed, index, None).question.to_string();
        assert_eq!(text(7, 3), text(7, 3));
        assert_ne!(text(7, 3), text(7, 4));
        assert_ne!(text(7, 3), text(8, 3));
    }

    /// Whole runs, as many as the gate compares.
    fn runs() -> impl Iterator<Item = Script> {
        (0..2000).map(|index| whole_run(1, index))
    }

    #[test]
    fn whole_runs_show_every_node_and_request() {
        let mut nodes = HashSet::new();
        let mut requests = HashSet::new();
        for script in runs() {
            nodes.extend(script.pool.nodes().iter().map(|node| (node.kind.byte(), node.next)));
            requests.extend(script.requests().map(|r| (r.prime, r.muladd)));
            assert!(script.commands.len() <= MAX_REQUESTS);
            assert!(script.requests().all(|request| request.asked.is_none()));
        }
        let kinds = Kind::OPERATIONS.into_iter().chain(Kind::LEAVES);
        let every: HashSet<_> =
            kinds.flat_map(|kind| [(kind.byte(), false), (kind.byte(), true)]).collect();
        assert_eq!(nodes, every);
        assert_eq!(requests.len(), 4);
    }

    #[test]
    fn whole_runs_go_to_the_limits() {
        let scripts: Vec<Script> = runs().collect();
        let most = |of: fn(&Script) -> usize| scripts.iter().map(of).max().unwrap_or(0);
        assert_eq!(most(|script| script.pool.nodes().len()), MAX_NODES);
        assert_eq!(most(|script| script.pool.expressions().len()), MAX_EXPRESSIONS);
        assert_eq!(most(|script| script.commands.len()), MAX_REQUESTS);
        assert!(most(levels) > 10, "{} levels", most(levels));
        assert!(most(depth) > 500, "a depth of {}", most(depth));
    }

    /// The longest way from a node down to a leaf.
    fn depth(script: &Script) -> usize {
        let mut depths: Vec<usize> = Vec::new();
        for node in script.pool.nodes() {
            let below = node.children.iter().map(|&child| depths[usize::from(child)]).max();
            depths.push(1 + below.unwrap_or(0));
        }
        depths.into_iter().max().unwrap_or(0)
    }

    /// The longest way from an expression through exp leaves.
    fn levels(script: &Script) -> usize {
        let (nodes, expressions) = (script.pool.nodes(), script.pool.expressions());
        let owners = pool::owners(nodes, expressions);
        let mut levels = vec![1; expressions.len()];
        // Without a cycle, nothing grows any more after as many rounds as there are levels.
        let mut grown = true;
        while grown {
            grown = false;
            for (node, owner) in nodes.iter().zip(&owners).filter(|(n, _)| n.kind == Kind::EXP) {
                if let Some(owner) = *owner {
                    let wanted = 1 + levels[usize::from(node.id)];
                    grown |= levels[owner] < wanted;
                    levels[owner] = levels[owner].max(wanted);
                }
            }
        }
        levels.into_iter().max().unwrap_or(0)
    }

    #[test]
    fn sizes_are_kept() {
        for index in 0..200 {
            let nodes = case(1, index, None).question.pool.nodes().len();
            let large = index % LARGE_EVERY == LARGE_EVERY - 1;
            let (low, high) = if large { LARGE.nodes } else { SMALL.nodes };
            assert!((low..=high).contains(&nodes), "case {} has {} nodes", index, nodes);
        }
        assert_eq!(case(1, 0, Some(300)).question.pool.nodes().len(), 300);
        assert_eq!(case(1, 0, Some(1 << 20)).question.pool.nodes().len(), MAX_NODES);
    }
}

//! Random questions. Pools are small: the original's full degree walks every way to every leaf.

use crate::constraint::Constraint;
use crate::contexts;
use crate::search::{visits_needed, Search};
use judge::case::{pool, request, Tree, BUILD};
use judge::kinds::Kind;
use judge::literal::Literal;
use judge::pool::Flags;
use judge::random::Random;
use judge::script::Command;

/// Nodes on all ways down from an expression, at most.
const MOST_WAYS: usize = 150;

/// A search that needs more visits gets a limit that it passes.
const MOST_VISITS: u64 = 5_000;

/// A limit that the others do not pass.
const ENOUGH: u64 = 1_000_000;

/// What a pool is made of.
#[derive(Clone, Copy)]
struct Style {
    /// Leaves beside exp; more of a kind make it more frequent.
    leaves: &'static [Kind],
    /// Of a hundred leaves so many are exp, where there is an expression to read.
    exps: usize,
    /// Of a hundred operations so many are products.
    products: usize,
    muladds: bool,
    /// One leaf of so many has next.
    next_every: usize,
}

const PLAIN: Style = Style {
    leaves: &[Kind::CM, Kind::CM, Kind::CM, Kind::CONST, Kind::X, Kind::NUMBER, Kind::CHALLENGE],
    exps: 55,
    products: 60,
    muladds: false,
    next_every: 12,
};
const COLUMNS: Style = Style { leaves: &[Kind::CM], products: 75, ..PLAIN };
const CONSTANTS: Style = Style {
    leaves: &[Kind::NUMBER, Kind::NUMBER, Kind::PUBLIC, Kind::CHALLENGE, Kind::EVAL],
    products: 35,
    ..PLAIN
};
const NUMBERS: Style = Style { leaves: &[Kind::NUMBER, Kind::PUBLIC], products: 15, ..PLAIN };
const ANY: Style = Style { leaves: &Kind::LEAVES, muladds: true, ..PLAIN };

/// The search of this seed and index. Call it on a large stack.
pub fn search(seed: u64, index: u64) -> Search {
    let random = &mut Random::new(seed, index);
    let style = random.pick(&[PLAIN, PLAIN, PLAIN, COLUMNS, COLUMNS, CONSTANTS, NUMBERS, ANY]);
    let mut search = unlimited(random, style);
    search.limit = limit(random, &search);
    search
}

/// The constraint of this seed and index, whose search is mostly accepted.
pub fn constraint(seed: u64, index: u64) -> Constraint {
    let random = &mut Random::new(!seed, index);
    let style = random.pick(&[PLAIN, PLAIN, PLAIN, COLUMNS, COLUMNS, ANY]);
    let next_every = random.pick(&[4, 12, 1000]);
    let mut search = unlimited(random, Style { next_every, ..style });
    search.limit = if random.chance(80) { ENOUGH } else { limit(random, &search) };
    if visits_needed(&Search { limit: MOST_VISITS, ..search.clone() }).is_none() {
        search.limit = random.below(MOST_VISITS as usize) as u64;
    }
    let (n_cm1, n_cm2) = (random.below(5) as u16, random.below(4) as u16);
    let commitments = match random.below(8) {
        0 => (n_cm1 + n_cm2).saturating_sub(1),
        1 => n_cm1 + n_cm2,
        _ => n_cm1 + n_cm2 + random.below(6) as u16,
    };
    let vc = random.pick(&[0, 1, 4, 4, 4, u16::MAX]);
    let (first, second) = (commands(random, &search), commands(random, &search));
    Constraint { search, n_cm1, n_cm2, commitments, vc, first, second }
}

fn unlimited(random: &mut Random, style: Style) -> Search {
    let expressions = random.between(1, 4).max(random.between(1, 8));
    let trees = trees(random, style, expressions);
    let last = trees.last().expect("an expression").0;
    let identities = identities(random, expressions, last);
    let mut ordered = trees;
    ordered.sort_by_key(|&(number, _)| number);
    let flagged: Vec<_> = ordered.into_iter().map(|(_, tree)| (tree, flags(random))).collect();
    let pool = pool(&flagged);
    let (n_bits, n_bits_ext) = bits(random);
    Search { pool, identities, n_bits, n_bits_ext, limit: ENOUGH }
}

fn flags(random: &mut Random) -> Flags {
    if random.chance(60) {
        return Flags::NONE;
    }
    Flags::from_byte(random.below(8) as u8).expect("flags")
}

/// Expressions with their numbers, each reading only those before it.
fn trees(random: &mut Random, style: Style, expressions: usize) -> Vec<(u16, Tree)> {
    let mut free: Vec<u16> = (0..expressions as u16).collect();
    if random.chance(30) {
        // In any order; else in the order of their numbers.
        free = (0..expressions).map(|_| random.take(&mut free)).collect();
    }
    let mut made = Made { style, numbers: free, ways: Vec::new() };
    let mut trees = Vec::new();
    for place in 0..expressions {
        let leaves = random.between(1, 3).max(random.between(1, 5));
        let (mut tree, mut ways) = made.tree(random, leaves);
        if ways > MOST_WAYS {
            (tree, ways) = made.leaf(random);
        }
        made.ways.push(ways);
        trees.push((made.numbers[place], tree));
    }
    trees
}

/// What was made so far: the numbers of expressions in the order of their making, and the ways down from each.
struct Made {
    style: Style,
    numbers: Vec<u16>,
    ways: Vec<usize>,
}

impl Made {
    /// A tree of so many leaves, and its nodes on all ways down.
    fn tree(&self, random: &mut Random, leaves: usize) -> (Tree, usize) {
        if random.one_of(6) {
            let (child, ways) = self.tree(random, leaves);
            return (unary(random, child), ways + 1);
        }
        if leaves == 1 {
            return self.leaf(random);
        }
        if leaves > 2 && self.style.muladds && random.chance(20) {
            let parts = [self.tree(random, 1), self.tree(random, 1), self.tree(random, leaves - 2)];
            return together(Kind::MULADD, parts.to_vec());
        }
        let left = random.between(1, leaves - 1);
        let parts = vec![self.tree(random, left), self.tree(random, leaves - left)];
        let sum = random.pick(&[Kind::ADD, Kind::ADD, Kind::SUB]);
        together(if random.chance(self.style.products) { Kind::MUL } else { sum }, parts)
    }

    fn leaf(&self, random: &mut Random) -> (Tree, usize) {
        let next = random.one_of(self.style.next_every);
        let place = random.below(self.ways.len() + 1).max(random.below(self.ways.len() + 1));
        if place > 0 && random.chance(self.style.exps) && self.ways[place - 1] < MOST_WAYS {
            let leaf = judge::case::exp(self.numbers[place - 1]);
            return (Tree { next, ..leaf }, 1 + self.ways[place - 1]);
        }
        let kind = match random.pick(self.style.leaves) {
            // Which there is no expression for.
            Kind::EXP => Kind::CM,
            kind => kind,
        };
        let id = if kind.has_id() { random.below(4) as u16 } else { 0 };
        let literal = if kind == Kind::NUMBER { Some(literal(random)) } else { None };
        (Tree { next, literal, ..judge::case::leaf(kind, id) }, 1)
    }
}

fn literal(random: &mut Random) -> Literal {
    Literal::from(random.pick(&[0, 1, -1, 5, i64::MIN]))
}

fn unary(random: &mut Random, child: Tree) -> Tree {
    let kind = random.pick(&[Kind::NEG, Kind::ADDC, Kind::MULC]);
    let literal = if kind.has_literal() { Some(literal(random)) } else { None };
    Tree { literal, ..judge::case::operation(kind, vec![child]) }
}

fn together(kind: Kind, parts: Vec<(Tree, usize)>) -> (Tree, usize) {
    let ways = 1 + parts.iter().map(|(_, ways)| ways).sum::<usize>();
    (judge::case::operation(kind, parts.into_iter().map(|(tree, _)| tree).collect()), ways)
}

/// Mostly the last that was made, which reads the others.
fn identities(random: &mut Random, expressions: usize, last: u16) -> Vec<u16> {
    let count = random.pick(&[1, 1, 1, 2, 2, 3, 5]);
    let mut identities: Vec<u16> = (0..count).map(|_| random.below(expressions) as u16).collect();
    let place = random.below(count);
    identities[place] = last;
    match random.below(40) {
        0 => Vec::new(),
        1 => {
            identities[place] = random.pick(&[expressions as u16, u16::MAX]);
            identities
        }
        _ => identities,
    }
}

fn bits(random: &mut Random) -> (u8, u8) {
    let n_bits = random.pick(&[0, 3, 3, 23, 24]);
    let more = random.pick(&[0, 0, 0, 1, 1, 1, 2, 2, 3, 4]);
    match random.below(40) {
        0 => random.pick(&[(25, 25), (1, 0), (24, 29), (3, 8), (255, 255), (255, 3)]),
        _ => (n_bits, n_bits + more),
    }
}

/// Often around the visits that are needed.
fn limit(random: &mut Random, search: &Search) -> u64 {
    let needed = match visits_needed(&Search { limit: MOST_VISITS, ..search.clone() }) {
        None => return random.below(MOST_VISITS as usize) as u64,
        Some(needed) => needed,
    };
    match random.below(20) {
        0 | 1 => needed.saturating_sub(1),
        2..=5 => needed,
        6 | 7 => needed + 1,
        8 => 0,
        9 => random.below(needed as usize + 1) as u64,
        10 => u64::MAX,
        _ => ENOUGH,
    }
}

/// What was done to a context before: mostly nothing. A request that is refused is not made.
fn commands(random: &mut Random, search: &Search) -> Vec<Command> {
    let count = random.pick(&[0, 0, 0, 1, 3]);
    let mut commands = Vec::new();
    for _ in 0..count {
        let expression = random.below(search.pool.expressions().len()) as u16;
        let command = match random.chance(40) {
            true => BUILD,
            false => request(expression, random.chance(40), random.chance(50)),
        };
        commands.push(command);
        if contexts::after(&mut search.pil(), &commands).is_err() {
            commands.pop();
        }
    }
    commands
}

//! A list evaluated by the library, and the pool's trees evaluated here, from the same values.

use crate::record::UNWRITTEN;
use enonkasse_sys::{self as library, CELL_SIZE, ROWS, STEP_SIZE, VALUE_PARTS};
use judge::kinds::Kind;
use judge::pool::{Node, Pool};
use judge::random::Random;
use judge::refusals::FULL;
use judge::script::Request;
use std::collections::{HashMap, HashSet};

/// 2, 3, 2^16 + 1, 2^31 - 1, 2^32 - 5, 2^32 - 1.
const MODULI: [u32; 6] = [2, 3, 65_537, 2_147_483_647, 4_294_967_291, 4_294_967_295];

/// Kind, prime, id (2).
const CELL: usize = 4;

/// Parts of the given values: cm, const and q have two rows; the x kinds come last.
const ROW_PARTS: usize = 3;
const XS: usize = 6;
const X_KINDS: [Kind; 3] = [Kind::X_DIV_X_SUB_XI, Kind::X_DIV_X_SUB_WXI, Kind::X];

/// Bytes of room behind the last cell, which must not change.
const SPARE: usize = 5;

/// What was compared.
#[derive(Clone, Debug, Default)]
pub struct Evaluated {
    pub evaluations: u64,
    pub cells: u64,
    pub expressions: u64,
    pub requested: u64,
    /// Rooms that were one byte short.
    pub short: u64,
}

impl Evaluated {
    pub fn add(&mut self, other: &Evaluated) {
        self.evaluations += other.evaluations;
        self.cells += other.cells;
        self.expressions += other.expressions;
        self.requested += other.requested;
        self.short += other.short;
    }
}

/// Where a leaf's words stand in its section, and how many it has. None for exp and number.
fn words_of(node: &Node) -> Option<(usize, usize, usize)> {
    let id = usize::from(node.id);
    let section = match node.kind {
        Kind::CM => 0,
        Kind::CONST => 1,
        Kind::Q => 2,
        Kind::PUBLIC => 3,
        Kind::CHALLENGE => 4,
        Kind::EVAL => 5,
        kind => {
            let place = X_KINDS.iter().position(|&x| x == kind)?;
            return Some((XS, place, 1));
        }
    };
    if section < ROW_PARTS {
        return Some((section, ROWS * id, ROWS));
    }
    Some((section, id, 1))
}

/// The given values: each leaf of the pool has its words, and no section is longer than that.
pub struct Given([Vec<u64>; VALUE_PARTS]);

impl Given {
    pub fn random(pool: &Pool, random: &mut Random) -> Given {
        let mut sections: [Vec<u64>; VALUE_PARTS] = Default::default();
        for (section, at, count) in pool.nodes().iter().filter_map(words_of) {
            let words = &mut sections[section];
            words.resize(words.len().max(at + count), 0);
            words[at..at + count].iter_mut().for_each(|word| *word = random.draw());
        }
        Given(sections)
    }

    /// The sizes, then the sections.
    pub fn words(&self) -> Vec<u64> {
        let sizes = self.0.iter().map(|section| section.len() as u64);
        sizes.chain(self.0.iter().flatten().copied()).collect()
    }
}

/// The values of a pool's trees modulo a number.
struct Trees<'a> {
    pool: &'a Pool,
    given: &'a Given,
    modulus: u64,
    known: HashMap<(usize, usize), u64>,
}

impl Trees<'_> {
    fn expression(&mut self, expression: usize, row: usize) -> u64 {
        if let Some(&value) = self.known.get(&(expression, row)) {
            return value;
        }
        let value = self.node(usize::from(self.pool.expressions()[expression].root), row);
        self.known.insert((expression, row), value);
        value
    }

    fn node(&mut self, number: usize, row: usize) -> u64 {
        let (pool, m) = (self.pool, self.modulus);
        let node = &pool.nodes()[number];
        let row_read = row + usize::from(node.next);
        let children: Vec<u64> =
            node.children.iter().map(|&child| self.node(usize::from(child), row)).collect();
        match node.kind {
            Kind::ADD => (children[0] + children[1]) % m,
            Kind::SUB => (children[0] + m - children[1]) % m,
            Kind::MUL => children[0] * children[1] % m,
            Kind::MULADD => (children[0] * children[1] % m + children[2]) % m,
            Kind::ADDC => (children[0] + self.literal(node)) % m,
            Kind::MULC => children[0] * self.literal(node) % m,
            Kind::NEG => (m - children[0]) % m,
            Kind::NUMBER => self.literal(node),
            Kind::EXP => self.expression(usize::from(node.id), row_read),
            _ => {
                let (section, at, count) = words_of(node).expect("a leaf");
                let row = if count == ROWS { row_read } else { 0 };
                self.given.0[section][at + row] % m
            }
        }
    }

    fn literal(&self, node: &Node) -> u64 {
        let text = node.literal.expect("a literal").to_string();
        let value: i128 = text.parse().expect("a decimal");
        value.rem_euclid(i128::from(self.modulus)) as u64
    }
}

/// The cells of a list's destinations, in the order in which they are first written.
fn written(list: &[u8]) -> Vec<[u8; CELL]> {
    let mut seen = HashSet::new();
    let mut cells = Vec::new();
    for record in list.chunks(STEP_SIZE) {
        let mut cell = [record[4], record[5], record[6], record[7]];
        if cell[0] == Kind::TMP.byte() {
            cell[1] = 0;
        }
        if seen.insert(cell) {
            cells.push(cell);
        }
    }
    cells
}

/// The exp cell of an expression at a row.
fn exp_cell(expression: u16, prime: bool) -> [u8; CELL] {
    let [high, low] = expression.to_be_bytes();
    [Kind::EXP.byte(), u8::from(prime), high, low]
}

/// Evaluates a first list modulo each number, from values of its own, and says what differs.
pub fn compare(
    pool: &Pool,
    frames: &[u8],
    list: &[u8],
    requests: &[Request],
    random: &mut Random,
) -> Result<Evaluated, String> {
    let mut evaluated = Evaluated::default();
    let cells = written(list);
    for modulus in MODULI {
        let given = Given::random(pool, random);
        let values = answer(frames, list, modulus, &given.words(), &cells)
            .map_err(|text| format!("modulo {}: {}", modulus, text))?;
        let m = u64::from(modulus);
        let mut trees = Trees { pool, given: &given, modulus: m, known: HashMap::new() };
        for (cell, &value) in cells.iter().zip(&values) {
            if cell[0] != Kind::EXP.byte() {
                continue;
            }
            let expression = usize::from(u16::from_be_bytes([cell[2], cell[3]]));
            let expected = trees.expression(expression, usize::from(cell[1]));
            if value != expected {
                let text = format!("{:02x?} is {}, not {}", cell, value, expected);
                return Err(format!("modulo {}: {}", modulus, text));
            }
            evaluated.expressions += 1;
        }
        for request in requests {
            if !cells.contains(&exp_cell(request.expression, request.prime)) {
                return Err(format!("{:?} has no value", request));
            }
            evaluated.requested += 1;
        }
        evaluated.evaluations += 1;
        evaluated.short += u64::from(!cells.is_empty());
        evaluated.cells += cells.len() as u64;
    }
    Ok(evaluated)
}

/// The values that the library answers, one for each cell; in a room one byte short it must refuse.
fn answer(
    frames: &[u8],
    list: &[u8],
    modulus: u32,
    values: &[u64],
    cells: &[[u8; CELL]],
) -> Result<Vec<u64>, String> {
    let size = CELL_SIZE * cells.len();
    let mut out = vec![UNWRITTEN; size + SPARE];
    let mut count = [usize::MAX];
    if size > 0 {
        let short = &mut out[..size - 1];
        let number = library::evaluate(frames, list, modulus, values, short, &mut count);
        if number != FULL || count != [usize::MAX] || out.iter().any(|&byte| byte != UNWRITTEN) {
            return Err(format!("a room one byte short is answered {}", number));
        }
    }
    let number = library::evaluate(frames, list, modulus, values, &mut out, &mut count);
    if number != 0 || count != [cells.len()] {
        return Err(format!("the answer is {} with {} cells", number, count[0]));
    }
    if out[size..].iter().any(|&byte| byte != UNWRITTEN) {
        return Err("what follows the last cell has changed".to_string());
    }
    let valued = out[..size].chunks(CELL_SIZE).zip(cells).map(|(bytes, cell)| {
        let value = u64::from_be_bytes(bytes[CELL..].try_into().expect("eight bytes"));
        Some(value).filter(|&value| bytes[..CELL] == *cell && value < u64::from(modulus))
    });
    valued
        .collect::<Option<_>>()
        .ok_or_else(|| "a cell is another, or past the modulus".to_string())
}

//! The evaluator, against an interpreter as one would write it: the same list and values, tables of cells, no check of anything.

use crate::clock::timed;
use crate::generation::Lent as Generation;
use crate::inputs::{both_ways, regular, Reading};
use crate::measure::Pair;
use enonkasse_sys::{evaluate, CELL_SIZE, MAX_EXPRESSIONS, REFERENCE_SIZE, ROWS, STEP_SIZE};
use judge::kinds::{Kind, Step};
use judge::pool::Pool;
use judge::random::Random;
use sessions::evaluation::Given;
use sessions::record::{literal_of, pool_frames, u16_at};

const MODULUS: u32 = 4_294_967_291;
const SEED: u64 = 1;

/// Temporaries of a list at the most.
const TEMPORARIES: usize = 1 << 16;

/// What both read.
struct Input {
    frames: Vec<u8>,
    list: Vec<u8>,
    values: Vec<u64>,
    /// Those of each node that brings one.
    literals: Vec<u64>,
}

impl Input {
    fn new(pool: &Pool) -> Input {
        let mut generation = Generation::new(pool, &both_ways(pool));
        assert_eq!(generation.whole(), [0; 3]);
        let [list, _, _] = generation.built();
        let modulo = |literal: i128| literal.rem_euclid(MODULUS.into()) as u64;
        let brought = |node: usize| {
            literal_of(pool, node).map_or(0, |literal| {
                let magnitude = i128::from(literal.magnitude());
                modulo(if literal.is_negative() { -magnitude } else { magnitude })
            })
        };
        Input {
            frames: pool_frames(pool),
            list,
            values: Given::random(pool, &mut Random::new(SEED, 0)).words(),
            literals: (0..pool.nodes().len()).map(brought).collect(),
        }
    }

    fn steps(&self) -> usize {
        self.list.len() / STEP_SIZE
    }
}

/// The cells of a run, and which were written in which order.
struct Cells<'a> {
    input: &'a Input,
    tmp: Vec<Option<u64>>,
    exp: Vec<Option<u64>>,
    order: Vec<[u8; 4]>,
}

impl Cells<'_> {
    fn new(input: &Input) -> Cells<'_> {
        let exp = vec![None; ROWS * MAX_EXPRESSIONS];
        Cells { input, tmp: vec![None; TEMPORARIES], exp, order: Vec::new() }
    }

    fn cell(&mut self, reference: &[u8]) -> &mut Option<u64> {
        let (prime, id) = (usize::from(reference[1]), u16_at(reference, 2));
        match reference[0] == Kind::TMP.byte() {
            true => &mut self.tmp[id],
            false => &mut self.exp[ROWS * id + prime],
        }
    }

    fn read(&mut self, reference: &[u8]) -> u64 {
        let (prime, id) = (usize::from(reference[1]), u16_at(reference, 2));
        let values = &self.input.values;
        let cm_at = enonkasse_sys::VALUE_PARTS;
        match Kind::from_byte(reference[0]).expect("a kind") {
            Kind::CM => values[cm_at + ROWS * id + prime] % u64::from(MODULUS),
            Kind::CONST => {
                values[cm_at + values[0] as usize + ROWS * id + prime] % u64::from(MODULUS)
            }
            Kind::NUMBER => self.input.literals[u16_at(reference, 10)],
            _ => self.cell(reference).expect("a written cell"),
        }
    }

    fn write(&mut self, reference: &[u8], value: u64) {
        if self.cell(reference).replace(value).is_none() {
            self.order.push([reference[0], reference[1], reference[2], reference[3]]);
        }
    }

    fn step(&mut self, record: &[u8]) {
        let m = u64::from(MODULUS);
        let source = |k: usize| &record[4 + REFERENCE_SIZE * (1 + k)..][..REFERENCE_SIZE];
        let a = self.read(source(0));
        let value = match Step::from_byte(record[0]).expect("a step") {
            Step::ADD => (a + self.read(source(1))) % m,
            Step::SUB => (a + m - self.read(source(1))) % m,
            Step::MUL => a * self.read(source(1)) % m,
            Step::MULADD => (a * self.read(source(1)) % m + self.read(source(2))) % m,
            _ => a,
        };
        self.write(&record[4..][..REFERENCE_SIZE], value);
    }

    fn answered(&mut self) -> Vec<([u8; 4], u64)> {
        let order = std::mem::take(&mut self.order);
        let value = |cell: [u8; 4]| (cell, self.cell(&cell).expect("a written cell"));
        order.into_iter().map(value).collect()
    }
}

fn interpret(input: &Input) -> Vec<([u8; 4], u64)> {
    let mut cells = Cells::new(input);
    input.list.chunks(STEP_SIZE).for_each(|record| cells.step(record));
    cells.answered()
}

fn port(input: &Input, out: &mut [u8]) -> usize {
    let mut cells = [0];
    let Input { frames, list, values, .. } = input;
    assert_eq!(evaluate(frames, list, MODULUS, values, out, &mut cells), 0);
    cells[0]
}

/// The first list of the pool of so many nodes.
pub fn evaluated(nodes: usize) -> Pair {
    let pool = regular(nodes, Reading::Others);
    let (input, other) = (Input::new(&pool), Input::new(&pool));
    let steps = input.steps();
    let mut out = vec![0; CELL_SIZE * steps];
    let cells = port(&input, &mut out);
    let expected = interpret(&other).into_iter().flat_map(|(cell, value)| {
        let value = value.to_be_bytes();
        cell.into_iter().chain(value).collect::<Vec<u8>>()
    });
    assert!(expected.eq(out[..CELL_SIZE * cells].iter().copied()), "both compute the same");
    Pair {
        title: format!("evaluation of a list of {} steps, against a plain interpreter", steps),
        port: Box::new(move || timed(|| port(&input, &mut out))),
        original: Box::new(move || timed(|| interpret(&other))),
        aim: None,
        units: (steps as u64, "step"),
    }
}

//! The port's records in bytes, read as what the original says of the same things.

use enonkasse_sys::{
    BLOCKS_AT, BLOCK_COUNT_AT, BLOCK_SIZE, MARKS_AT, MAX_SOURCES, REFERENCE_SIZE, ROWS,
    STEP_COUNT_AT, TEMPORARY_COUNT_AT,
};
use judge::answer::{Block, State};
use judge::hex;
use judge::kinds::Kind;
use judge::literal::Literal;
use judge::pool::{Expression, Node, Pool};

/// What stands where nothing was written: in bytes and in words.
pub const UNWRITTEN: u8 = 0xa5;
pub const UNWRITTEN_WORD: u64 = u64::from_ne_bytes([UNWRITTEN; 8]);

/// What a context begins with: version, mode, rows, a spare byte.
const HEAD: [u8; 4] = [0, 0, ROWS as u8, 0];

/// Frames as they are lent, each behind its length.
pub fn framed(frames: impl IntoIterator<Item = Vec<u8>>) -> Vec<u8> {
    let mut bytes = Vec::new();
    for frame in frames {
        bytes.extend((frame.len() as u16).to_be_bytes());
        bytes.extend(frame);
    }
    bytes
}

/// The same, of frames in hexadecimal.
pub fn framed_hex<'a>(lines: impl IntoIterator<Item = &'a &'a str>) -> Vec<u8> {
    framed(lines.into_iter().map(|line| hex::decode(line).expect("hexadecimal")))
}

/// The frames of a pool.
pub fn pool_frames(pool: &Pool) -> Vec<u8> {
    let nodes = pool.nodes().iter().map(Node::frame);
    framed(nodes.chain(pool.expressions().iter().map(Expression::frame)))
}

pub fn u16_at(bytes: &[u8], at: usize) -> usize {
    usize::from(u16::from_be_bytes([bytes[at], bytes[at + 1]]))
}

/// A step's record in document 01's output encoding, which is how the original's are compared.
/// None where a record has what generation does not make.
pub fn encoded(record: &[u8], pool: &Pool) -> Option<Vec<u8>> {
    let (step, count) = (record[0], usize::from(record[1]));
    let mut references = record[4..].chunks(REFERENCE_SIZE);
    let mut bytes = vec![step];
    push_reference(references.next()?, pool, &mut bytes)?;
    bytes.push(record[1]);
    for (place, reference) in references.enumerate() {
        if place < count {
            push_reference(reference, pool, &mut bytes)?;
        } else if reference.iter().any(|&byte| byte != 0) {
            return None;
        }
    }
    Some(bytes).filter(|_| count <= MAX_SOURCES)
}

fn push_reference(record: &[u8], pool: &Pool, bytes: &mut Vec<u8>) -> Option<()> {
    let (kind, prime, extra) = (record[0], record[1], u16_at(record, 10));
    if record[4..10].iter().any(|&byte| byte != 0) {
        return None;
    }
    bytes.extend([kind, record[2], record[3], prime]);
    if kind != Kind::NUMBER.byte() {
        return Some(()).filter(|_| extra == 0);
    }
    bytes.extend(literal_of(pool, extra)?.bytes());
    Some(())
}

/// What a node brings: neg brings 0.
pub fn literal_of(pool: &Pool, node: usize) -> Option<Literal> {
    let node = pool.nodes().get(node)?;
    match node.kind {
        Kind::NEG => Some(Literal::from(0)),
        _ => node.literal,
    }
}

/// What a context says, and how many steps. None where it has what no context of this pool has.
pub fn said(context: &[u8], expressions: usize) -> Option<(State, Vec<Block>, usize)> {
    let marks = &context[MARKS_AT..BLOCKS_AT];
    let is_strange =
        |(cell, &mark): (usize, &u8)| mark > 1 || mark != 0 && cell / ROWS >= expressions;
    if context[..HEAD.len()] != HEAD || marks.iter().enumerate().any(is_strange) {
        return None;
    }
    let row = |row: usize| (0..expressions).map(|e| marks[ROWS * e + row] != 0).collect();
    let state =
        State { counter: u16_at(context, TEMPORARY_COUNT_AT), plain: row(0), primed: row(1) };
    let entry = |k: usize| {
        let at = BLOCKS_AT + BLOCK_SIZE * k;
        let prime = u16_at(context, at + 2);
        let block = |prime| Block {
            expression: u16_at(context, at),
            prime,
            steps: u16_at(context, at + 4),
        };
        Some(block(prime == 1)).filter(|_| prime < ROWS)
    };
    let blocks = (0..u16_at(context, BLOCK_COUNT_AT)).map(entry).collect::<Option<_>>()?;
    Some((state, blocks, u16_at(context, STEP_COUNT_AT)))
}

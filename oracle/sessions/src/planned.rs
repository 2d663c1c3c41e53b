//! The port's answers to questions about plans: its exported functions on a question's bytes, and
//! what stands after each of them.

use crate::maps;
use crate::record::{framed, u16_at};
use crate::sectioned;
use crate::spoiled::Fault;
use crate::spread;
use asked::rows::Rows;
use enonkasse_sys::{self as library, REFERENCE_SIZE, STEP_SIZE};
use judge::kinds::Kind;
use judge::literal::Literal;
use judge::random::Random;
use plans::input::Input;
use plans::lists::{Reference, Segment, Step, MAX_SOURCES};
use plans::question::{Answer, Given, Question};
use plans::tally::{questions_on, Questions, Said, Tally};
use plans::walks::{Domain, Walk};
use std::sync::Mutex;

/// One input of so many has its expressions and columns spread.
const SPREAD_EVERY: u64 = 5;

/// What stands behind a step's last source.
const BEHIND: u8 = 0xa5;

/// The x dimension of the pass over fixed lists, and of the others.
const FIXED_X: u16 = 1;
const UNFIXED_X: u16 = 3;

/// Random questions, some on pools and plans with large numbers.
pub fn questions(seed: u64, index: u64) -> Questions {
    let random = &mut Random::new(seed, index);
    let mut input = plans::random::input(random);
    if index % SPREAD_EVERY == 0 {
        input = spread::input(random, input);
    }
    questions_on(random, input)
}

/// The exported functions, and how often something wrong was lent to them.
#[derive(Default)]
pub struct Port {
    pub faults: Mutex<Rows>,
}

/// What was compared, and the first difference.
pub type Compared = Result<(Tally, Option<String>), String>;

impl Port {
    /// Compares so many random plans, and the walks by them, with the original.
    pub fn compare(&self, seed: u64, count: u64) -> Compared {
        plans::tally::compare(seed, count, questions, |question| self.say(question))
    }

    /// To `map`, to a walk and to records; `get_exp_dim` is not exported.
    pub fn say(&self, question: &Question) -> Said {
        match question {
            Question::Map(input) => self.map(input).map(Some),
            Question::Walk(input, walk, segment) => self.walk(input, *walk, segment).map(Some),
            Question::Sections(records) => sectioned::say(records),
            Question::ExpDims(_) => Ok(None),
        }
    }

    fn map(&self, input: &Input) -> Result<Answer, String> {
        let lent = Sent::new(input, &Segment::default()).lent;
        for fault in Fault::OF_READING {
            let mut lent = lent.clone();
            fault.put_in(Stage::Query, &mut lent);
            let expected = fault.number(input, &lent.plan);
            let number = maps::number(&lent.frames, &lent.plan)?;
            self.count_fault("map", fault, number, expected)?;
        }
        maps::answer(&lent.frames, &lent.plan, input.pool.expressions.len())
    }

    fn walk(&self, input: &Input, walk: Walk, segment: &Segment) -> Result<Answer, String> {
        let sent = Sent::new(input, segment);
        let mut lent = sent.lent.clone();
        for stage in stages(walk) {
            self.refuses_a_fault(input, stage, &lent)?;
            let before = lent.clone();
            let number = stage.call(&mut lent);
            if number != 0 {
                lent.unchanged(&before, number)?;
                return Ok(Answer::Refused(number));
            }
        }
        Ok(Answer::Given(Given::Segment(sent.segment_of(&lent)?)))
    }

    /// One thing wrong with the same call: its number, and nothing lent has changed.
    fn refuses_a_fault(&self, input: &Input, stage: Stage, sent: &Lent) -> Result<(), String> {
        let fault = Fault::of(stage, sent);
        let mut lent = sent.clone();
        let stage = fault.put_in(stage, &mut lent);
        let before = lent.clone();
        let (expected, number) = (fault.number(input, &lent.plan), stage.call(&mut lent));
        lent.unchanged(&before, number)?;
        self.count_fault(stage.name(), fault, number, expected)
    }

    fn count_fault(
        &self,
        name: &str,
        fault: Fault,
        number: u8,
        expected: u8,
    ) -> Result<(), String> {
        if number != expected {
            return Err(format!("with {:?}: the answer is {}, not {}\n", fault, number, expected));
        }
        let name = format!("{}, {:?}", name, fault);
        self.faults.lock().expect("a tally").count(&name, number);
        Ok(())
    }
}

/// A call of an exported function.
#[derive(Clone, Copy, Debug, PartialEq, Eq)]
pub enum Stage {
    /// For a domain's number.
    Fix(u8),
    Query,
    Dimension(u16),
    DimensionFirst,
}

impl Stage {
    pub fn name(self) -> &'static str {
        match self {
            Stage::Fix(_) => "fix",
            Stage::Query => "query",
            Stage::Dimension(_) => "dimension",
            Stage::DimensionFirst => "dimension_first",
        }
    }

    /// How many lists it takes.
    pub fn lists(self) -> usize {
        match self {
            Stage::DimensionFirst => 1,
            _ => 3,
        }
    }

    pub fn call(self, lent: &mut Lent) -> u8 {
        let Lent { frames, plan, counter, lists: [first, i, last] } = lent;
        match self {
            Stage::Fix(domain) => library::fix(frames, plan, domain, counter, first, i, last),
            Stage::Query => library::query(frames, plan, first, i, last),
            Stage::Dimension(dim_x) => library::dimension(frames, plan, dim_x, first, i, last),
            Stage::DimensionFirst => library::dimension_first(frames, plan, first),
        }
    }
}

pub fn fix(domain: Domain) -> Stage {
    match domain {
        Domain::N => Stage::Fix(0),
        Domain::TwoNs => Stage::Fix(1),
    }
}

fn stages(walk: Walk) -> Vec<Stage> {
    let pass = Stage::Dimension(FIXED_X);
    match walk {
        Walk::Fix(domain) => vec![fix(domain)],
        Walk::Query => vec![fix(Domain::TwoNs), Stage::Query],
        Walk::Dims => vec![Stage::Dimension(UNFIXED_X)],
        Walk::DimsFirst => vec![Stage::DimensionFirst],
        Walk::FixDims(domain) => vec![fix(domain), pass],
        Walk::QueryDims => vec![fix(Domain::TwoNs), Stage::Query, pass],
    }
}

/// What is lent to a walk.
#[derive(Clone, Debug, PartialEq, Eq)]
pub struct Lent {
    pub frames: Vec<u8>,
    pub plan: Vec<u8>,
    pub counter: [usize; 1],
    pub lists: [Vec<u8>; 3],
}

impl Lent {
    pub fn unchanged(&self, before: &Lent, number: u8) -> Result<(), String> {
        if self == before {
            return Ok(());
        }
        Err(format!("refused with {}, and what was lent has changed\n", number))
    }
}

/// A segment as it is lent. A number says which of `literals` it is: no walk looks at that.
pub struct Sent {
    pub lent: Lent,
    literals: Vec<Literal>,
}

impl Sent {
    pub fn new(input: &Input, segment: &Segment) -> Sent {
        let mut literals = Vec::new();
        let lists = segment.lists().map(|(_, list)| {
            let steps = list.iter().enumerate();
            steps.flat_map(|(place, step)| record(place, step, &mut literals)).collect()
        });
        let frames = framed(input.pool.frames());
        let lent = Lent { frames, plan: input.plan.clone(), counter: [segment.counter], lists };
        Sent { lent, literals }
    }

    fn segment_of(&self, lent: &Lent) -> Result<Segment, String> {
        if (&lent.frames, &lent.plan) != (&self.lent.frames, &self.lent.plan) {
            return Err("frames or plan have changed\n".to_string());
        }
        let list = |place: usize| {
            let (after, before) = (lent.lists[place].chunks(STEP_SIZE), &self.lent.lists[place]);
            after
                .zip(before.chunks(STEP_SIZE))
                .map(|(a, b)| self.step(a, b))
                .collect::<Result<_, _>>()
        };
        Ok(Segment { counter: lent.counter[0], first: list(0)?, i: list(1)?, last: list(2)? })
    }

    /// Step, source count, origin and what stands behind the last source stay as they are.
    fn step(&self, after: &[u8], before: &[u8]) -> Result<Step, String> {
        let end = 4 + REFERENCE_SIZE * (1 + usize::from(before[1]));
        if after[..4] != before[..4] || after[end..] != before[end..] {
            return Err(format!("{:02x?} has become {:02x?}\n", before, after));
        }
        let mut references =
            after[4..end].chunks(REFERENCE_SIZE).map(|bytes| self.reference(bytes));
        let dest = references.next().expect("a destination")?;
        Ok(Step { op: after[0], dest, src: references.collect::<Result<_, _>>()? })
    }

    fn reference(&self, bytes: &[u8]) -> Result<Reference, String> {
        let fault = || format!("{:02x?} is no reference\n", bytes);
        let kind = Kind::references().find(|kind| kind.byte() == bytes[0]).ok_or_else(fault)?;
        let prime = [false, true].get(usize::from(bytes[1])).copied().ok_or_else(fault)?;
        let plain = Reference {
            prime,
            dim: u16_at(bytes, 4),
            p: u16_at(bytes, 6),
            tree_pos: u16_at(bytes, 8),
            ..Reference::new(kind, u16_at(bytes, 2))
        };
        let extra = u16_at(bytes, 10);
        match kind {
            Kind::NUMBER => {
                let literal = self.literals.get(extra).copied().ok_or_else(fault)?;
                Ok(Reference { literal: Some(literal), ..plain })
            }
            _ => Ok(Reference { exp_id: extra, ..plain }),
        }
    }
}

/// A step at some place, which gives it an origin.
fn record(place: usize, step: &Step, literals: &mut Vec<Literal>) -> Vec<u8> {
    let origin = (place as u16).wrapping_mul(0x2f1d);
    let mut bytes = vec![step.op, step.src.len() as u8];
    bytes.extend(origin.to_be_bytes());
    push_reference(&mut bytes, &step.dest, literals);
    assert!(step.src.len() <= MAX_SOURCES);
    step.src.iter().for_each(|source| push_reference(&mut bytes, source, literals));
    bytes.resize(STEP_SIZE, BEHIND);
    bytes
}

fn push_reference(bytes: &mut Vec<u8>, reference: &Reference, literals: &mut Vec<Literal>) {
    let extra = match reference.literal {
        Some(literal) => {
            literals.push(literal);
            literals.len() - 1
        }
        None => reference.exp_id,
    };
    bytes.extend([reference.kind.byte(), u8::from(reference.prime)]);
    for number in [reference.id, reference.dim, reference.p, reference.tree_pos, extra] {
        bytes.extend(u16::try_from(number).expect("a number of a record").to_be_bytes());
    }
}

#[cfg(test)]
mod tests {
    use super::*;

    const LINES: [&str; 3] = [
        "first exp:0' = add number:-5 cm:3@d1,p2,t7,e9",
        "i tmp:1@e4 = muladd number:7 tmpExp:2@d3 x:0",
        "last f:0 = step05",
    ];

    /// Whatever byte of a list a walk would change, its answer would be another.
    #[test]
    fn every_byte_of_a_list_is_read_back() {
        let mut segment = Segment { counter: 6, ..Segment::default() };
        for line in LINES {
            assert_eq!(segment.take_line(line), Ok(true));
        }
        let sent = Sent::new(&Input::default(), &segment);
        assert_eq!(sent.segment_of(&sent.lent), Ok(segment.clone()));
        for list in 0..3 {
            for at in 0..sent.lent.lists[list].len() {
                let mut lent = sent.lent.clone();
                lent.lists[list][at] ^= 1;
                assert_ne!(sent.segment_of(&lent), Ok(segment.clone()), "{} {}", list, at);
            }
        }
        let counted = Lent { counter: [7], ..sent.lent.clone() };
        assert_ne!(sent.segment_of(&counted), Ok(segment));
    }
}

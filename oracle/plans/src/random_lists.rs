//! Random segments and records: lists as generation makes them, and lists of any references.

use crate::lists::{Reference, Segment, Step, MAX_SOURCES};
use crate::mapped::{Record, SECTIONS};
use crate::plan::Plan;
use crate::walks::Walk;
use judge::answer::{Answer, StepBytes};
use judge::kinds::{self, Kind};
use judge::pool::Pool;
use judge::random::Random;
use judge::run::Original;
use judge::script::{Asked, Request};

/// Results that generated lists are asked for: later passes take some of them, and some not.
const RESULTS: [Kind; 5] = [Kind::F, Kind::Q, Kind::TMP, Kind::TMP_EXP, Kind::CM];

/// What the original's generation makes of some requests. Call it on a large stack.
pub fn generated(random: &mut Random, pool: &Pool) -> Result<Segment, String> {
    let mut original = Original::new(pool);
    for _ in 0..random.between(1, 4) {
        let request = random_request(random, pool.expressions().len());
        let saved = original.saved();
        if original.request(&request)?.is_refusal() {
            original.restore(saved);
        }
    }
    match original.build()? {
        Answer::Built { first, i, last, state } => Ok(Segment {
            counter: state.counter,
            first: steps(&first)?,
            i: steps(&i)?,
            last: steps(&last)?,
        }),
        other => Err(format!("a build gave {:?}", other)),
    }
}

fn random_request(random: &mut Random, expressions: usize) -> Request {
    let expression = random.below(expressions) as u16;
    let asked = match random.one_of(8) {
        true => Some(Asked { kind: random.pick(&RESULTS), id: random.below(4) as u16 }),
        false => None,
    };
    Request { expression, prime: random.chance(30), muladd: random.chance(50), asked }
}

fn steps(list: &[StepBytes]) -> Result<Vec<Step>, String> {
    list.iter().map(Step::generated).collect()
}

/// What random references are drawn from.
struct Drawn<'a> {
    random: &'a mut Random,
    plan: &'a Plan,
    expressions: usize,
    walk: Walk,
    /// Kinds come as they like, also where there is no rule for them.
    wild: bool,
    /// Temporaries and expressions that an earlier step wrote.
    written: Vec<Reference>,
}

/// Kinds of sources that the walks take.
const SOURCES: [Kind; 10] = [
    Kind::CM,
    Kind::CM,
    Kind::CONST,
    Kind::PUBLIC,
    Kind::CHALLENGE,
    Kind::EVAL,
    Kind::ZI,
    Kind::X,
    Kind::X_DIV_X_SUB_XI,
    Kind::X_DIV_X_SUB_WXI,
];

/// Kinds of sources that the dimension pass takes and fixing does not.
const OF_DIMENSIONS: [Kind; 5] = [Kind::TREE1, Kind::TREE2, Kind::TREE3, Kind::TREE4, Kind::Z];

/// Kinds of destinations that the walks take.
const DESTINATIONS: [Kind; 7] =
    [Kind::TMP, Kind::TMP, Kind::EXP, Kind::EXP, Kind::Q, Kind::F, Kind::TMP_EXP];

const STEPS: [kinds::Step; 5] =
    [kinds::Step::ADD, kinds::Step::SUB, kinds::Step::MUL, kinds::Step::MULADD, kinds::Step::COPY];

/// A segment of any steps. Where the walk fixes they have the sources that they need.
pub fn any(random: &mut Random, pool: &Pool, plan: &Plan, walk: Walk) -> Segment {
    let wild = random.chance(35);
    let counter = random.pick(&[0, 0, 1, 1, 4, 4, 9, 9, 65_534]);
    let expressions = pool.expressions().len();
    let mut drawn = Drawn { random, plan, expressions, walk, wild, written: Vec::new() };
    let mut list = || drawn.list();
    Segment { counter, first: list(), i: list(), last: list() }
}

impl Drawn<'_> {
    fn list(&mut self) -> Vec<Step> {
        (0..self.random.between(0, 3)).map(|_| self.step()).collect()
    }

    fn step(&mut self) -> Step {
        let known = self.random.pick(&STEPS);
        let mut step = Step { op: known.byte(), dest: Reference::new(Kind::TMP, 0), src: vec![] };
        let mut count = known.source_count();
        if self.random.one_of(10) {
            count = self.random.between(count, MAX_SOURCES);
        }
        if self.wild && !self.walk.fixes() {
            if self.random.one_of(12) {
                count = self.random.below(count);
            }
            if self.random.one_of(20) {
                step.op = self.random.pick(&[0, 5, 7, 9, u8::MAX]);
            }
        }
        step.src = (0..count).map(|_| self.source()).collect();
        step.dest = self.destination();
        self.written.push(step.dest);
        step
    }

    fn source(&mut self) -> Reference {
        if !self.written.is_empty() && self.random.chance(35) {
            let written = self.random.pick(&self.written);
            if [Kind::TMP, Kind::EXP].contains(&written.kind) {
                return written;
            }
        }
        let kind = match self.random.below(20) {
            0 => Kind::NUMBER,
            1 => Kind::Q,
            2 => Kind::TMP_EXP,
            3 | 4 if !self.walk.fixes() => self.random.pick(&OF_DIMENSIONS),
            5 if self.wild => self.any_kind(),
            6 if self.wild => Kind::EXP,
            _ => self.random.pick(&SOURCES),
        };
        self.reference(kind)
    }

    fn destination(&mut self) -> Reference {
        let kind = match self.random.below(12) {
            0 => Kind::CM,
            1 if self.wild => self.any_kind(),
            _ => self.random.pick(&DESTINATIONS),
        };
        self.reference(kind)
    }

    fn any_kind(&mut self) -> Kind {
        let kinds: Vec<Kind> = Kind::references().collect();
        self.random.pick(&kinds)
    }

    fn reference(&mut self, kind: Kind) -> Reference {
        if kind == Kind::NUMBER {
            return Reference::number(self.random.pick(&[0, 1, -5]).into());
        }
        let prime = self.random.chance(25);
        let id = if kind.has_id() { self.id(kind) } else { 0 };
        let mut reference = Reference { prime, ..Reference::new(kind, id) };
        let needs_dimension = OF_DIMENSIONS.contains(&kind) || kind == Kind::TMP_EXP;
        if needs_dimension && self.random.chance(85) {
            reference.dim = self.random.between(1, 3);
        }
        if self.random.one_of(12) {
            self.set_fields(&mut reference);
        }
        reference
    }

    /// Mostly one that the plan has.
    fn id(&mut self, kind: Kind) -> usize {
        let there = match kind {
            Kind::CM => self.plan.columns(),
            Kind::EXP => self.expressions,
            Kind::Q => self.plan.qs.len(),
            _ => 4,
        };
        if there == 0 || self.wild && self.random.one_of(15) {
            return self.random.pick(&[there, 500, usize::from(u16::MAX)]);
        }
        self.random.below(there)
    }

    /// Fields that a walk may leave, or write over.
    fn set_fields(&mut self, reference: &mut Reference) {
        reference.dim = self.random.between(0, 4);
        reference.p = self.random.below(20);
        reference.tree_pos = self.random.below(20);
        reference.exp_id = self.random.below(20);
    }
}

/// Records of any sections, dimensions and positions, but mostly of those that there are.
pub fn records(random: &mut Random) -> Vec<Record> {
    let (sections, dimensions) = (random.between(1, SECTIONS.len() + 1), random.between(1, 5));
    let count = random.between(0, 12);
    let mut record = || Record {
        section: random.below(sections),
        dimension: random.below(dimensions),
        position: random.below(100),
    };
    (0..count).map(|_| record()).collect()
}

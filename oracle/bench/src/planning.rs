//! Plans: `map`, and fixing with dimensions of a large segment.

use crate::clock::timed;
use crate::generation::{generate, Lent as Generation};
use crate::inputs::{both_ways, largest_plan, plan, regular, Reading};
use crate::measure::{Case, Pair, Work};
use enonkasse_sys::{dimension, fix, map, search, MAP_ROOM, SET_WORDS};
use judge::pool::{Pool, MAX_NODES};
use judge::run::pil;
use original::starkinfo::Program;
use original::starkinfo_codegen::{build_code, Segment};
use plans::original_map::Before;
use plans::plan::{Plan, MAX_RECORDS};
use searches::search::fresh_context;
use sessions::record::pool_frames;
use std::time::Duration;

/// Map and fixing are to be so many times as fast.
const AIM: f64 = 5.0;

/// Nodes of a pool that is read in no time.
const FEW_NODES: usize = 256;

/// Fixing for the prover's own domain, and the x dimension after it.
const DOMAIN_N: u8 = 0;
const FIXED_X: u16 = 1;

/// A pool and a plan as the port is lent them.
#[derive(Clone)]
struct Lent {
    frames: Vec<u8>,
    plan: Vec<u8>,
    out: Vec<u8>,
}

impl Lent {
    fn new(pool: &Pool, plan: &Plan) -> Lent {
        let lent = Lent { frames: pool_frames(pool), plan: plan.bytes(), out: vec![0; MAP_ROOM] };
        assert_eq!(lent.clone().map(), 0);
        lent
    }

    fn map(&mut self) -> u8 {
        map(&self.frames, &self.plan, &mut self.out, &mut [0])
    }

    /// Reading and admission: a search for no identity does this and nothing more.
    fn read(&self) -> u8 {
        search(&self.frames, &[], 0, 0, 0, &mut [0; SET_WORDS], &mut [0; 2])
    }

    fn walk(&self, segment: &mut PortSegment) -> [u8; 2] {
        let PortSegment { counter, lists: [first, i, last] } = segment;
        [
            fix(&self.frames, &self.plan, DOMAIN_N, counter, first, i, last),
            dimension(&self.frames, &self.plan, FIXED_X, first, i, last),
        ]
    }
}

#[derive(Clone, Default)]
struct PortSegment {
    counter: [usize; 1],
    lists: [Vec<u8>; 3],
}

fn original_map(pool: &Pool, plan: &Plan) -> Work {
    let (pool, plan) = (pool.clone(), plan.clone());
    Box::new(move || map_time(&pool, &plan, Program::default()))
}

fn map_time(pool: &Pool, plan: &Plan, program: Program) -> Duration {
    let before = Before::new(pool, plan);
    timed(|| {
        let after = before.map(program);
        assert!(after.end.is_ok());
        after
    })
}

/// Of a pool of so many nodes a plan of so many records.
pub fn mapped(nodes: usize, records: usize) -> Pair {
    let pool = regular(nodes, Reading::Columns);
    let plan = plan(&pool, records);
    let mut lent = Lent::new(&pool, &plan);
    Pair {
        title: format!("map of {} records, over a pool of {} nodes", records, nodes),
        port: Box::new(move || timed(|| lent.map())),
        original: original_map(&pool, &plan),
        aim: Some(AIM),
        units: (records as u64, "record"),
    }
}

fn mapped_alone() -> Pair {
    let pool = regular(MAX_NODES, Reading::Columns);
    let plan = largest_plan(&pool);
    let mut lent = Lent::new(&pool, &plan);
    Pair {
        title: "the same, without reading and admitting the pool".to_string(),
        port: Box::new(move || {
            let read = timed(|| lent.read());
            timed(|| lent.map()).saturating_sub(read)
        }),
        original: original_map(&pool, &plan),
        aim: Some(AIM),
        units: (MAX_RECORDS as u64, "record"),
    }
}

/// What both sides have of a segment: that of a regular pool, every expression at both rows.
#[derive(Clone)]
struct Large {
    pool: Pool,
    plan: Plan,
    lent: Lent,
    segment: PortSegment,
}

impl Large {
    fn new(nodes: usize) -> Large {
        let pool = regular(nodes, Reading::Others);
        let plan = plan(&pool, nodes);
        let requests = both_ways(&pool);
        let mut generation = Generation::new(&pool, &requests);
        assert_eq!(generation.whole(), [0; 3]);
        let lent = Lent::new(&pool, &plan);
        let counter = [original_segment(&pool).tmp_used];
        let segment = PortSegment { counter, lists: generation.built() };
        assert_eq!(lent.walk(&mut segment.clone()), [0; 2]);
        Large { pool, plan, lent, segment }
    }

    fn steps(&self) -> u64 {
        let bytes: usize = self.segment.lists.iter().map(Vec::len).sum();
        (bytes / enonkasse_sys::STEP_SIZE) as u64
    }

    fn original_map(&self, program: Program) -> Duration {
        map_time(&self.pool, &self.plan, program)
    }

    fn program(&self) -> Program {
        Program { step3: original_segment(&self.pool), ..Program::default() }
    }

    fn pair(self, title: &str, [port, original]: [Time; 2]) -> Pair {
        let (steps, mut this, mut other) = (self.steps(), self.clone(), self);
        Pair {
            title: title.to_string(),
            port: Box::new(move || port(&mut this)),
            original: Box::new(move || original(&mut other)),
            aim: Some(AIM),
            units: (steps, "step"),
        }
    }
}

type Time = fn(&mut Large) -> Duration;

fn original_segment(pool: &Pool) -> Segment {
    let (mut context, mut pil) = (fresh_context(), pil(pool));
    generate(&mut context, &mut pil, &both_ways(pool));
    build_code(&mut context, &pil)
}

fn port_walks(large: &mut Large) -> Duration {
    let mut segment = large.segment.clone();
    timed(|| large.lent.walk(&mut segment))
}

fn port_reads_and_plans(large: &mut Large) -> Duration {
    let mut empty = PortSegment { counter: large.segment.counter, ..PortSegment::default() };
    timed(|| large.lent.walk(&mut empty))
}

fn port_walks_alone(large: &mut Large) -> Duration {
    port_walks(large).saturating_sub(port_reads_and_plans(large))
}

fn port_all(large: &mut Large) -> Duration {
    let mut segment = large.segment.clone();
    timed(|| (large.lent.map(), large.lent.walk(&mut segment)))
}

fn original_all(large: &mut Large) -> Duration {
    large.original_map(large.program())
}

/// The original's walks are reached through its `map`: the time with the segment, less that without.
fn original_walks(large: &mut Large) -> Duration {
    original_all(large).saturating_sub(large.original_map(Program::default()))
}

/// Fixing and dimensions of the segment of a pool of so many nodes.
pub fn walked(nodes: usize) -> Pair {
    let large = Large::new(nodes);
    let title = format!("fixing and dimensions of a segment of {} steps", large.steps());
    large.pair(&title, [port_walks, original_walks])
}

fn walked_alone() -> Pair {
    let title = "fixing and dimensions, without reading, admitting and planning twice";
    Large::new(MAX_NODES).pair(title, [port_walks_alone, original_walks])
}

fn mapped_and_walked() -> Pair {
    let title = "map, fixing and dimensions of that segment";
    Large::new(MAX_NODES).pair(title, [port_all, original_all])
}

pub fn cases() -> Vec<Case> {
    vec![
        Case::new("map", || mapped(MAX_NODES, MAX_RECORDS)),
        Case::new("map-alone", mapped_alone),
        Case::new("map-few-nodes", || mapped(FEW_NODES, MAX_RECORDS)),
        Case::new("walks", || walked(MAX_NODES)),
        Case::new("walks-alone", walked_alone),
        Case::new("map-and-walks", mapped_and_walked),
    ]
}

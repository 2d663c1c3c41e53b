//! Generation: whole runs and single requests.

use crate::clock::timed;
use crate::inputs::{both_ways, chain, regular, request, Reading};
use crate::measure::{Case, Pair, Work};
use enonkasse_sys::{build, fresh, run, serve, CONTEXT_SIZE, LIST_ROOM, STEP_SIZE};
use judge::answer::StepBytes;
use judge::pool::{Pool, MAX_NODES};
use judge::random::whole_run;
use judge::run::{pil, Original};
use judge::script::Request;
use original::starkinfo_codegen::{build_code, pil_code_gen, Context};
use original::types::PIL;
use searches::search::fresh_context;
use sessions::record::{encoded, framed, pool_frames};

/// Generation is to be so many times as fast.
const AIM: f64 = 20.0;

/// The place of the largest run in each so many of the random ones.
const LARGEST: u64 = 999;
const EVERY: u64 = 2000;
const SEED: u64 = 1;

/// Single requests that are measured together.
const REQUESTS: usize = 64;

/// What the port is lent for generation.
pub struct Lent {
    frames: Vec<u8>,
    context: Vec<u8>,
    list: Vec<u8>,
    lists: [Vec<u8>; 3],
    sizes: [usize; 3],
    totals: [usize; 2],
}

impl Lent {
    pub fn new(pool: &Pool, requests: &[Request]) -> Lent {
        let mut frames = pool_frames(pool);
        frames.extend(framed(requests.iter().map(Request::frame)));
        let room = || vec![0; STEP_SIZE * LIST_ROOM];
        let (context, lists) = (vec![0; CONTEXT_SIZE], [room(), room(), room()]);
        Lent { frames, context, list: room(), lists, sizes: [0; 3], totals: [0; 2] }
    }

    pub fn fresh(&mut self) -> u8 {
        fresh(&mut self.context)
    }

    pub fn serve(&mut self) -> u8 {
        serve(&self.frames, 0, 0, &mut self.context, &mut self.list)
    }

    pub fn build(&mut self) -> u8 {
        let [first, i, last] = &mut self.lists;
        build(&self.frames, &mut self.context, &self.list, first, i, last, &mut self.sizes)
    }

    pub fn whole(&mut self) -> [u8; 3] {
        [self.fresh(), self.serve(), self.build()]
    }

    /// The whole run as one call: the first list alone.
    pub fn run(&mut self) -> u8 {
        run(&self.frames, &mut self.list, &mut self.totals)
    }

    /// The lists of a build, cut to their sizes.
    pub fn built(&self) -> [Vec<u8>; 3] {
        let cut = |k: usize| self.lists[k][..STEP_SIZE * self.sizes[k]].to_vec();
        [cut(0), cut(1), cut(2)]
    }
}

pub fn generate(context: &mut Context, pil: &mut PIL, requests: &[Request]) {
    for request in requests {
        let expression = usize::from(request.expression);
        let done = pil_code_gen(context, pil, expression, request.prime, "", 0, request.muladd);
        done.expect("an accepted request");
    }
}

fn original_whole(pool: &Pool, requests: &[Request]) -> Work {
    let (mut pil, requests) = (pil(pool), requests.to_vec());
    Box::new(move || {
        let mut context = fresh_context();
        timed(|| {
            generate(&mut context, &mut pil, &requests);
            build_code(&mut context, &pil)
        })
    })
}

fn port_run(pool: &Pool, requests: &[Request]) -> Work {
    let mut lent = Lent::new(pool, requests);
    Box::new(move || timed(|| lent.run()))
}

fn port_whole(pool: &Pool, requests: &[Request]) -> Work {
    let mut lent = Lent::new(pool, requests);
    Box::new(move || timed(|| lent.whole()))
}

/// The lists of both sides, which must be the same.
fn check_lists(pool: &Pool, requests: &[Request]) {
    let (mut context, mut pil) = (fresh_context(), pil(pool));
    generate(&mut context, &mut pil, requests);
    let segment = build_code(&mut context, &pil);
    let mut lent = Lent::new(pool, requests);
    assert_eq!(lent.whole(), [0; 3]);
    for (list, expected) in lent.built().iter().zip([segment.first, segment.i, segment.last]) {
        let steps = list.chunks(STEP_SIZE).map(|record| encoded(record, pool).expect("a step"));
        let bytes = |section| StepBytes::of(section).expect("a step").bytes().to_vec();
        assert!(steps.eq(expected.iter().map(bytes)), "the lists differ");
    }
    assert_eq!(lent.run(), 0);
    assert_eq!(lent.totals, [lent.sizes[0], segment.tmp_used]);
    assert!(lent.list.starts_with(&lent.built()[0]), "the whole run's list differs");
}

/// The whole run in one call.
fn whole(title: String, pool: &Pool, requests: &[Request]) -> Pair {
    check_lists(pool, requests);
    Pair {
        title,
        port: port_run(pool, requests),
        original: original_whole(pool, requests),
        aim: Some(AIM),
        units: (pool.nodes().len() as u64, "node"),
    }
}

/// The first of the largest random runs in which nothing is refused.
fn random_run() -> (Pool, Vec<Request>) {
    let scripts = (0..).map(|k| whole_run(SEED, EVERY * k + LARGEST));
    let accepted = |pool: &Pool, requests: &[Request]| {
        let mut original = Original::new(pool);
        let mut answers = requests.iter().map(|request| original.request(request));
        answers.all(|answer| !answer.expect("an answer").is_refusal())
    };
    let mut runs = scripts.map(|script| {
        let requests = script.requests().copied().collect();
        (script.pool, requests)
    });
    runs.find(|(pool, requests): &(Pool, Vec<Request>)| accepted(pool, requests)).expect("a run")
}

/// Some expression's request, from a fresh context: the port reads and admits the pool for it.
fn one_request() -> Pair {
    let (pool, requests) = random_run();
    let asked = request(requests[requests.len() / 2].expression, false);
    let mut lent = Lent::new(&pool, &[asked]);
    let mut pil = pil(&pool);
    Pair {
        title: "one request of that pool, a call of its own".to_string(),
        port: Box::new(move || {
            assert_eq!(lent.fresh(), 0);
            timed(|| lent.serve())
        }),
        original: Box::new(move || {
            let mut contexts: Vec<Context> = (0..REQUESTS).map(|_| fresh_context()).collect();
            let time = timed(|| contexts.iter_mut().for_each(|c| generate(c, &mut pil, &[asked])));
            time / REQUESTS as u32
        }),
        aim: None,
        units: (1, "request"),
    }
}

/// Every request a call of its own, on one context.
fn one_by_one() -> Pair {
    let (pool, requests) = random_run();
    let alone = |asked: &Request| Lent::new(&pool, &[*asked]).frames;
    let calls: Vec<Vec<u8>> = requests.iter().map(alone).collect();
    let mut lent = Lent::new(&pool, &[]);
    Pair {
        title: format!("its {} requests, each a call of its own, and a build", requests.len()),
        port: Box::new(move || {
            timed(|| {
                lent.fresh();
                for frames in &calls {
                    serve(frames, 0, 0, &mut lent.context, &mut lent.list);
                }
                lent.build()
            })
        }),
        original: original_whole(&pool, &requests),
        aim: None,
        units: (requests.len() as u64, "request"),
    }
}

/// The whole run of a regular pool of so many nodes.
pub fn grown(nodes: usize) -> Pair {
    let pool = regular(nodes, Reading::Others);
    let requests = both_ways(&pool);
    let title = format!("whole run of a regular pool: {} nodes", nodes);
    whole(title, &pool, &requests)
}

/// A chain of so many nodes, both ways.
pub fn grown_chain(nodes: usize) -> Pair {
    let pool = chain(nodes);
    let title = format!("a chain of {} nodes, fused, this row and the next", nodes);
    whole(title, &pool, &both_ways(&pool))
}

fn random_whole() -> Pair {
    let (pool, requests) = random_run();
    let title = format!(
        "whole run: {} random nodes, {} expressions, {} requests in one call",
        pool.nodes().len(),
        pool.expressions().len(),
        requests.len()
    );
    whole(title, &pool, &requests)
}

/// The same with a context that is kept, and all three lists.
fn in_three_calls() -> Pair {
    let (pool, requests) = random_run();
    let port = port_whole(&pool, &requests);
    let title = "the same in three calls, with all three lists".to_string();
    Pair { port, ..whole(title, &pool, &requests) }
}

pub fn cases() -> Vec<Case> {
    vec![
        Case::new("whole", random_whole),
        Case::new("lists", in_three_calls),
        Case::new("request", one_request),
        Case::new("one-by-one", one_by_one),
        Case::new("regular", || grown(MAX_NODES)),
        Case::new("chain", || grown_chain(MAX_NODES)),
    ]
}

//! Many random sessions, the port's and the original's, compared by two workers.

use crate::session::{compare, Fault, Setting, Tally};
use judge::pool::MAX_NODES;
use judge::random;
use judge::run::on_large_stack;
use judge::script::{Command, Request, Script};
use judge::shrink::shrink;
use std::sync::atomic::{AtomicU64, Ordering};
use std::thread;

const WORKERS: usize = 2;

/// Nodes of a session that is larger than most.
const HUNDREDS: usize = 300;

/// Whole sessions, or first lists that are evaluated.
#[derive(Clone, Copy, Debug, PartialEq)]
pub enum Mode {
    Sessions,
    Lists,
}

impl Mode {
    fn script(self, seed: u64, index: u64) -> Script {
        match self {
            Mode::Sessions => script(seed, index),
            Mode::Lists => plain(script(seed, index)),
        }
    }

    fn setting(self, index: u64) -> Setting {
        match self {
            Mode::Sessions => Setting::of(index),
            Mode::Lists => Setting::evaluating(index),
        }
    }
}

/// Up to its first build, and asking for no result.
fn plain(script: Script) -> Script {
    let without = |request: &Request| Request { asked: None, ..*request };
    let mut commands: Vec<Command> = script
        .commands
        .iter()
        .map_while(|command| match command {
            Command::Request(request) => Some(Command::Request(without(request))),
            Command::Build => None,
        })
        .collect();
    commands.push(Command::Build);
    Script { commands, ..script }
}

/// Of a thousand sessions one is as large as can be, of a hundred one has hundreds of nodes.
fn script(seed: u64, index: u64) -> Script {
    let nodes = match index % 1000 {
        999 => Some(MAX_NODES),
        i if i % 100 == 98 => Some(HUNDREDS),
        _ => None,
    };
    random::case(seed, index, nodes).question
}

/// What was compared, and the first difference that was found.
#[derive(Default)]
pub struct Part {
    pub sessions: u64,
    nodes: usize,
    expressions: usize,
    pub tally: Tally,
    found: Option<(u64, String)>,
}

/// Compares so many sessions of a seed, or as many as come before a difference.
pub fn run(mode: Mode, seed: u64, count: u64) -> Result<Part, String> {
    let (queue, end) = (AtomicU64::new(0), AtomicU64::new(count));
    let work = || on_large_stack(|| compare_all(mode, seed, &queue, &end));
    let parts: Vec<Result<Part, String>> = thread::scope(|scope| {
        let workers: Vec<_> = (0..WORKERS).map(|_| scope.spawn(work)).collect();
        workers.into_iter().map(|worker| worker.join().expect("a worker")).collect()
    });
    let mut all = Part::default();
    for part in parts {
        let part = part?;
        all.sessions += part.sessions;
        all.nodes = all.nodes.max(part.nodes);
        all.expressions = all.expressions.max(part.expressions);
        all.tally.add(&part.tally);
        all.found = all.found.into_iter().chain(part.found).min();
    }
    Ok(all)
}

impl Part {
    /// The difference, with as small a script as shows one.
    pub fn difference(&self, mode: Mode, seed: u64) -> Result<Option<String>, String> {
        let (index, text) = match &self.found {
            Some((index, text)) => (*index, text.clone()),
            None => return Ok(None),
        };
        let said = format!("session {} of seed {} differs: {}", index, seed, text);
        let setting = mode.setting(index);
        let (script, text) = smaller(mode.script(seed, index), setting, text)?;
        Ok(Some(format!("{}\nso does this one, asked as {:?}:\n{}{}", said, setting, script, text)))
    }
}

fn compare_all(mode: Mode, seed: u64, queue: &AtomicU64, end: &AtomicU64) -> Result<Part, String> {
    let mut part = Part::default();
    loop {
        let index = queue.fetch_add(1, Ordering::SeqCst);
        if index >= end.load(Ordering::SeqCst) {
            return Ok(part);
        }
        let script = mode.script(seed, index);
        match compare(&script, mode.setting(index)) {
            Ok(tally) => {
                part.sessions += 1;
                part.nodes = part.nodes.max(script.pool.nodes().len());
                part.expressions = part.expressions.max(script.pool.expressions().len());
                part.tally.add(&tally);
            }
            Err(Fault::Differs(text)) => {
                end.fetch_min(index, Ordering::SeqCst);
                part.found = Some((index, text));
                return Ok(part);
            }
            Err(Fault::Unanswered(text)) => {
                end.fetch_min(index, Ordering::SeqCst);
                return Err(format!("session {} of seed {}: {}", index, seed, text));
            }
        }
    }
}

fn smaller(found: Script, setting: Setting, text: String) -> Result<(Script, String), String> {
    on_large_stack(|| {
        let shows = |script: &Script| matches!(compare(script, setting), Err(Fault::Differs(_)));
        let script = shrink(&found, shows);
        match compare(&script, setting) {
            Err(Fault::Differs(text)) => Ok((script, text)),
            _ => Ok((found, text)),
        }
    })
}

/// Prints what was compared.
pub fn print(mode: Mode, seed: u64, all: &Part) {
    let row = |name: &str, value: u64| println!("| {:<28} | {:>10} |", name, value);
    row("Seed", seed);
    println!("|---|---|");
    row("Sessions equal", all.sessions);
    row("Calls that serve", all.tally.serves);
    row("Requests in these", all.tally.requests);
    row("Of these for a result", all.tally.results);
    row("Builds", all.tally.builds);
    for (number, &count) in &all.tally.refused {
        row(&format!("Calls refused with {}", number), count);
    }
    row("Most nodes", all.nodes as u64);
    row("Most expressions", all.expressions as u64);
    row("Steps compared", all.tally.steps);
    row("Of these muladd", all.tally.fused);
    row("Longest list", all.tally.longest as u64);
    if mode == Mode::Lists {
        row("Evaluations", all.tally.evaluated.evaluations);
        row("Cells answered", all.tally.evaluated.cells);
        row("Of these expressions", all.tally.evaluated.expressions);
        row("Requested cells compared", all.tally.evaluated.requested);
    }
}

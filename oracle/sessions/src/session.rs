//! A session: calls of the library and of the original, in turn, from a fresh context, and
//! what stands after each compared.

use crate::evaluation::{self, Evaluated};
use crate::record::{encoded, framed, pool_frames, said, UNWRITTEN};
use enonkasse_sys::{self as library, CONTEXT_SIZE, STEP_SIZE};
use judge::answer::{Answer, StepBytes};
use judge::kinds::Step;
use judge::pool::Pool;
use judge::random::Random;
use judge::refusals::FULL;
use judge::run::Original;
use judge::script::{Command, Request, Script};
use std::collections::BTreeMap;

/// Steps that a list has room for, unless it is a tight one.
const ROOM: usize = 16384;

/// How a script is asked.
#[derive(Clone, Copy, Debug)]
pub struct Setting {
    /// Requests that follow one another are one call, up to one that asks for a result.
    pub grouped: bool,
    /// Steps that the context's list has room for, and each list of a build.
    pub list: usize,
    pub built: usize,
    /// The rows at which the first list of a build is evaluated, if it is.
    pub rows: Option<u64>,
}

impl Setting {
    /// Half of the sessions are grouped; of twenty two have a tight list, and two tight lists of
    /// builds.
    pub fn of(index: u64) -> Setting {
        let tight = (index / 20 % 16) as usize;
        let room = |places: [u64; 2]| if places.contains(&(index % 20)) { tight } else { ROOM };
        // Large sessions have the same place in each thousand.
        let grouped = (index + index / 1000) % 2 == 1;
        Setting { grouped, list: room([7, 14]), built: room([3, 16]), rows: None }
    }

    /// Each request a call of its own, room enough, and the list evaluated.
    pub fn evaluating(index: u64) -> Setting {
        Setting { grouped: false, list: ROOM, built: ROOM, rows: Some(index) }
    }
}

/// What was compared.
#[derive(Clone, Debug, Default)]
pub struct Tally {
    pub serves: u64,
    pub builds: u64,
    pub requests: u64,
    pub results: u64,
    pub refused: BTreeMap<u8, u64>,
    pub steps: u64,
    pub fused: u64,
    pub longest: usize,
    pub evaluated: Evaluated,
}

/// Why a session ended early.
#[derive(Debug)]
pub enum Fault {
    Differs(String),
    /// The original did what document 01 has no word for.
    Unanswered(String),
}

impl From<String> for Fault {
    fn from(text: String) -> Fault {
        Fault::Unanswered(text)
    }
}

fn differs<T>(text: String) -> Result<T, Fault> {
    Err(Fault::Differs(text))
}

/// Runs a session to its end, or to the first difference. Call it on a large stack.
pub fn compare(script: &Script, setting: Setting) -> Result<Tally, Fault> {
    let mut session = Session::new(&script.pool, setting)?;
    for (number, call) in calls(&script.commands, setting.grouped).into_iter().enumerate() {
        let done = match call {
            [Command::Build] => session.build(),
            requests => session.serve(&requests.iter().filter_map(request).collect::<Vec<_>>()),
        };
        done.map_err(|fault| match fault {
            Fault::Differs(text) => Fault::Differs(format!("call {}: {}", number, text)),
            Fault::Unanswered(text) => Fault::Unanswered(format!("call {}: {}", number, text)),
        })?;
    }
    Ok(session.tally)
}

fn request(command: &Command) -> Option<Request> {
    match command {
        Command::Request(request) => Some(*request),
        Command::Build => None,
    }
}

/// The commands of each call.
fn calls(commands: &[Command], grouped: bool) -> Vec<&[Command]> {
    let mut calls = Vec::new();
    let mut start = 0;
    for (at, command) in commands.iter().enumerate() {
        let ends = match commands.get(at + 1) {
            Some(Command::Request(_)) => match command {
                Command::Request(request) => !grouped || request.asked.is_some(),
                Command::Build => true,
            },
            _ => true,
        };
        if ends {
            calls.push(&commands[start..=at]);
            start = at + 1;
        }
    }
    calls
}

struct Session<'a> {
    pool: &'a Pool,
    frames: Vec<u8>,
    setting: Setting,
    original: Original,
    ours: Lent,
    /// The same bytes as they stood before the call.
    before: Lent,
    /// The requests served since the context was fresh.
    served: Vec<Request>,
    tally: Tally,
}

#[derive(Clone, PartialEq)]
struct Lent {
    context: Vec<u8>,
    list: Vec<u8>,
}

impl<'a> Session<'a> {
    fn new(pool: &'a Pool, setting: Setting) -> Result<Session<'a>, Fault> {
        let mut ours = Lent {
            context: vec![UNWRITTEN; CONTEXT_SIZE],
            list: vec![UNWRITTEN; STEP_SIZE * setting.list],
        };
        if library::fresh(&mut ours.context) != 0 {
            return differs("a fresh context is refused".to_string());
        }
        let frames = pool_frames(pool);
        let (before, original) = (ours.clone(), Original::new(pool));
        let (served, tally) = (Vec::new(), Tally::default());
        Ok(Session { pool, frames, setting, original, ours, before, served, tally })
    }

    fn serve(&mut self, requests: &[Request]) -> Result<(), Fault> {
        self.tally.serves += 1;
        self.tally.requests += requests.len() as u64;
        let asked = requests.last().and_then(|request| request.asked);
        self.tally.results += u64::from(asked.is_some());
        let saved = self.original.saved();
        let mut expected = 0;
        for request in requests {
            if let Answer::Refused(refusal) = self.original.request(request)? {
                expected = refusal.number();
                break;
            }
        }
        let steps = self.original.steps()?;
        if expected == 0 && steps.len() > self.setting.list {
            expected = FULL;
        }
        let mut frames = self.frames.clone();
        frames.extend(framed(requests.iter().map(Request::frame)));
        let (kind, id) = asked.map_or((0, 0), |asked| (asked.kind.byte(), asked.id));
        let Lent { context, list } = &mut self.ours;
        let number = library::serve(&frames, kind, id, context, list);
        self.judge(number, expected)?;
        if expected != 0 {
            self.original.restore(saved);
            return self.nothing_changed();
        }
        self.compare_context()?;
        compare_list("the list", self.pool, &steps, &self.ours.list, &self.before.list)?;
        self.tally.count(&steps);
        let end = STEP_SIZE * steps.len();
        self.before.list[..end].copy_from_slice(&self.ours.list[..end]);
        self.before.context.copy_from_slice(&self.ours.context);
        self.served.extend(requests);
        Ok(())
    }

    fn build(&mut self) -> Result<(), Fault> {
        self.tally.builds += 1;
        let saved = self.original.saved();
        let expected_lists = match self.original.build()? {
            Answer::Built { first, i, last, .. } => [first, i, last],
            other => return Err(Fault::Unanswered(format!("a build gave {:?}", other))),
        };
        let fits = |list: &Vec<StepBytes>| list.len() <= self.setting.built;
        let expected = if expected_lists.iter().all(fits) { 0 } else { FULL };
        let room = STEP_SIZE * self.setting.built.min(expected_lists[0].len() + 2);
        let unwritten = vec![UNWRITTEN; room];
        let mut lists = [unwritten.clone(), unwritten.clone(), unwritten.clone()];
        let mut sizes = [usize::MAX; 3];
        let (Lent { context, list }, [first, i, last]) = (&mut self.ours, &mut lists);
        let number = library::build(&self.frames, context, list, first, i, last, &mut sizes);
        self.judge(number, expected)?;
        if expected != 0 {
            self.original.restore(saved);
            if sizes != [usize::MAX; 3] || lists.iter().any(|list| *list != unwritten) {
                return differs("a refused build wrote its lists or their sizes".to_string());
            }
            return self.nothing_changed();
        }
        self.compare_context()?;
        for (place, name) in ["first", "i", "last"].into_iter().enumerate() {
            let expected = &expected_lists[place];
            if sizes[place] != expected.len() {
                let (expected, got) = (expected.len(), sizes[place]);
                return differs(format!("{} has {} steps, not {}", name, got, expected));
            }
            compare_list(name, self.pool, expected, &lists[place], &unwritten)?;
            self.tally.count(expected);
        }
        if self.ours.list != self.before.list {
            return differs("a build changed the context's list".to_string());
        }
        self.before.context.copy_from_slice(&self.ours.context);
        if let Some(rows) = self.setting.rows {
            let (first, mut random) = (&lists[0][..STEP_SIZE * sizes[0]], Random::new(rows, 0));
            let evaluated =
                evaluation::compare(self.pool, &self.frames, first, &self.served, &mut random);
            self.tally.evaluated.add(&evaluated.map_err(Fault::Differs)?);
        }
        Ok(())
    }

    fn judge(&mut self, number: u8, expected: u8) -> Result<(), Fault> {
        if number != expected {
            return differs(format!("the answer is {}, not {}", number, expected));
        }
        if expected != 0 {
            *self.tally.refused.entry(expected).or_default() += 1;
        }
        Ok(())
    }

    fn nothing_changed(&self) -> Result<(), Fault> {
        if self.ours == self.before {
            return Ok(());
        }
        differs("a refusal changed what was lent".to_string())
    }

    /// Marks, blocks and both counters.
    fn compare_context(&self) -> Result<(), Fault> {
        let (state, blocks) = (self.original.state(), self.original.blocks());
        let steps = blocks.iter().map(|block| block.steps).sum();
        let expected = Some((state, blocks, steps));
        let got = said(&self.ours.context, self.pool.expressions().len());
        if got == expected {
            return Ok(());
        }
        differs(format!("the context says {:?}, not {:?}", got, expected))
    }
}

/// The steps at the front of a list, and behind them what stood there before.
fn compare_list(
    name: &str,
    pool: &Pool,
    expected: &[StepBytes],
    list: &[u8],
    before: &[u8],
) -> Result<(), Fault> {
    let end = STEP_SIZE * expected.len();
    for (number, (record, step)) in list.chunks(STEP_SIZE).zip(expected).enumerate() {
        let got = encoded(record, pool);
        if got.as_deref() != Some(step.bytes()) {
            let text = format!("{}: step {} is {:02x?}, not {}", name, number, record, step);
            return differs(text);
        }
    }
    if list.len() < end || list[end..] != before[end..] {
        return differs(format!("{}: what follows the last step has changed", name));
    }
    Ok(())
}

impl Tally {
    fn count(&mut self, list: &[StepBytes]) {
        self.steps += list.len() as u64;
        self.fused += list.iter().filter(|step| step.is(Step::MULADD)).count() as u64;
        self.longest = self.longest.max(list.len());
    }

    pub fn add(&mut self, other: &Tally) {
        self.serves += other.serves;
        self.builds += other.builds;
        self.requests += other.requests;
        self.results += other.results;
        for (number, count) in &other.refused {
            *self.refused.entry(*number).or_default() += count;
        }
        self.steps += other.steps;
        self.fused += other.fused;
        self.longest = self.longest.max(other.longest);
        self.evaluated.add(&other.evaluated);
    }
}

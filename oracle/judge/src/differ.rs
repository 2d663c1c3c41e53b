//! The differential run: a program and the original on the same random inputs.

use crate::answer::StepBytes;
use crate::kinds::Step;
use crate::printed::Printed;
use crate::program::Program;
use crate::random;
use crate::script::Script;
use crate::shrink::shrink;
use std::collections::BTreeMap;
use std::fmt;
use std::sync::atomic::{AtomicU64, Ordering};
use std::thread;

/// So many programs run at a time.
const WORKERS: usize = 2;

/// What was compared, and how it ended.
#[derive(Clone, Debug, Default, PartialEq, Eq)]
pub struct Tally {
    pub runs: u64,
    pub equal: u64,
    pub accepted: u64,
    pub refused: BTreeMap<u8, u64>,
    pub nodes: usize,
    pub expressions: usize,
    pub requests: usize,
    pub steps: u64,
    pub fused: u64,
    pub longest: usize,
}

/// An input on which the program answers otherwise than the original.
#[derive(Clone, Debug, PartialEq, Eq)]
pub struct Difference {
    pub index: u64,
    pub script: Script,
    pub text: String,
}

/// The input as frames, and how the answers differ.
impl fmt::Display for Difference {
    fn fmt(&self, f: &mut fmt::Formatter<'_>) -> fmt::Result {
        writeln!(f, "run {} differs, and so does this one:", self.index)?;
        write!(f, "{}{}", self.script.frames(), self.text)
    }
}

/// Compares on the random inputs 0 to `count` - 1 of a seed, to the first that differs. That
/// one is the same however the work was shared, since lower numbers are always finished.
pub fn differ(
    program: &dyn Program,
    seed: u64,
    count: u64,
) -> Result<(Tally, Option<Difference>), String> {
    let queue = AtomicU64::new(0);
    let end = AtomicU64::new(count);
    let work = || compare_all(program, seed, &queue, &end);
    let parts: Vec<Result<Part, String>> = thread::scope(|scope| {
        let workers: Vec<_> = (0..WORKERS).map(|_| scope.spawn(work)).collect();
        workers.into_iter().map(|worker| worker.join().expect("a worker")).collect()
    });
    let mut tally = Tally::default();
    let mut first: Option<Difference> = None;
    for part in parts {
        let (part, found) = part?;
        tally.add(&part);
        let earlier = |d: &Difference| first.as_ref().map_or(true, |f| d.index < f.index);
        if found.as_ref().map_or(false, earlier) {
            first = found;
        }
    }
    Ok((tally, first.map(|found| smaller(program, found))))
}

type Part = (Tally, Option<Difference>);

fn compare_all(
    program: &dyn Program,
    seed: u64,
    queue: &AtomicU64,
    end: &AtomicU64,
) -> Result<Part, String> {
    let mut tally = Tally::default();
    loop {
        let index = queue.fetch_add(1, Ordering::SeqCst);
        if index >= end.load(Ordering::SeqCst) {
            return Ok((tally, None));
        }
        let script = random::whole_run(seed, index);
        let stop_the_others = || end.fetch_min(index, Ordering::SeqCst);
        match compare(program, &script) {
            Ok((printed, None)) => tally.count(&script, &printed, true),
            Ok((printed, Some(text))) => {
                stop_the_others();
                tally.count(&script, &printed, false);
                return Ok((tally, Some(Difference { index, script, text })));
            }
            Err(text) => {
                stop_the_others();
                return Err(format!("run {} of seed {}: {}", index, seed, text));
            }
        }
    }
}

/// The original's answer, and in words how the program's differs from it, if it does.
fn compare(program: &dyn Program, script: &Script) -> Result<(Printed, Option<String>), String> {
    let printed = Printed::of(script)?;
    let expected = printed.to_string();
    let reply = program.ask(script.frames().as_bytes())?;
    let difference = if reply.is(&expected) { None } else { Some(reply.difference(&expected)) };
    Ok((printed, difference))
}

fn smaller(program: &dyn Program, found: Difference) -> Difference {
    let differs = |script: &Script| matches!(compare(program, script), Ok((_, Some(_))));
    let script = shrink(&found.script, differs);
    match compare(program, &script) {
        Ok((_, Some(text))) => Difference { script, text, ..found },
        _ => found,
    }
}

impl Tally {
    fn count(&mut self, script: &Script, printed: &Printed, equal: bool) {
        self.runs += 1;
        self.equal += u64::from(equal);
        self.nodes = self.nodes.max(script.pool.nodes().len());
        self.expressions = self.expressions.max(script.pool.expressions().len());
        self.requests = self.requests.max(script.commands.len());
        match printed {
            Printed::List { first, .. } => {
                let is_fused = |step: &&StepBytes| step.is(Step::MULADD);
                self.accepted += 1;
                self.steps += first.len() as u64;
                self.fused += first.iter().filter(is_fused).count() as u64;
                self.longest = self.longest.max(first.len());
            }
            Printed::Refusal(number) => *self.refused.entry(*number).or_default() += 1,
        }
    }

    fn add(&mut self, other: &Tally) {
        self.runs += other.runs;
        self.equal += other.equal;
        self.accepted += other.accepted;
        for (number, count) in &other.refused {
            *self.refused.entry(*number).or_default() += count;
        }
        self.nodes = self.nodes.max(other.nodes);
        self.expressions = self.expressions.max(other.expressions);
        self.requests = self.requests.max(other.requests);
        self.steps += other.steps;
        self.fused += other.fused;
        self.longest = self.longest.max(other.longest);
    }
}

/// The rows of a table.
impl fmt::Display for Tally {
    fn fmt(&self, f: &mut fmt::Formatter<'_>) -> fmt::Result {
        let mut row = |name: &str, value: u64| writeln!(f, "| {:<28} | {:>10} |", name, value);
        row("Runs", self.runs)?;
        row("Equal", self.equal)?;
        row("Accepted", self.accepted)?;
        for (number, &count) in &self.refused {
            row(&format!("Refused with {}", number), count)?;
        }
        row("Most nodes", self.nodes as u64)?;
        row("Most expressions", self.expressions as u64)?;
        row("Most requests", self.requests as u64)?;
        row("Steps compared", self.steps)?;
        row("Of these muladd", self.fused)?;
        row("Longest list", self.longest as u64)
    }
}

#[cfg(test)]
mod tests {
    use super::*;
    use crate::program::Reply;

    /// Answers as the original does, after `spoil`.
    struct StandIn<F>(F);

    impl<F: Fn(String) -> String + Sync> Program for StandIn<F> {
        fn ask(&self, input: &[u8]) -> Result<Reply, String> {
            let text = std::str::from_utf8(input).map_err(|error| error.to_string())?;
            let script = Script::from_frames(text).map_err(|fault| fault.to_string())?;
            Ok(Reply::Printed(self.0(Printed::of(&script)?.to_string()).into_bytes()))
        }
    }

    #[test]
    fn the_original_equals_itself() {
        let (tally, difference) = differ(&StandIn(|text| text), 1, 1000).unwrap();
        assert_eq!(difference, None);
        assert_eq!((tally.runs, tally.equal), (1000, 1000));
        assert_eq!(tally.refused.keys().copied().collect::<Vec<u8>>(), [3, 5]);
        assert!(tally.accepted > 600 && tally.refused.values().all(|&n| n > 50), "{}", tally);
        assert_eq!((tally.nodes, tally.expressions, tally.requests), (4096, 512, 1024));
        assert!(tally.steps > 5000 && tally.fused > 500, "{}", tally);
    }

    #[test]
    fn one_changed_byte_is_caught_and_shown_small() {
        let fused = |text: String| text.replacen("041200", "031200", 1);
        let (tally, difference) = differ(&StandIn(fused), 1, 1000).unwrap();
        let found = difference.expect("a difference");
        assert!(tally.equal < tally.runs);
        let script = "011000000000\n011000000000\n011000000000\n010400000003000000010002\n\
                      02000300\nrequest 0 0 1\n";
        assert_eq!(found.script.to_string(), script);
        assert!(found.text.starts_with("line 1: expected \"0412"), "{}", found.text);
    }

    #[test]
    fn a_wrong_refusal_and_a_missing_line_feed_are_caught() {
        let double = |text: String| text.replace("ff05", "ff03");
        let found = differ(&StandIn(double), 1, 1000).unwrap().1.expect("a difference");
        assert_eq!(found.text, r#"line 1: expected "ff05\n", printed "ff03\n""#);
        assert_eq!(found.script.pool.nodes().len(), 1);
        let cut = |text: String| text.trim_end().to_string();
        let found = differ(&StandIn(cut), 1, 1000).unwrap().1.expect("a difference");
        assert_eq!((found.index, found.script), (0, Script::default()));
    }
}

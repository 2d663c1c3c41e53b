//! The whole run as one call, compared as a program is: frames in, what document 01 prints out.

use crate::record::{encoded, framed, UNWRITTEN};
use enonkasse_sys::{self as library, LIST_ROOM, STEP_SIZE};
use judge::answer::StepBytes;
use judge::differ::{differ, Difference, Tally};
use judge::printed::Printed;
use judge::program::{Program, Reply};
use judge::script::Script;

struct WholeRun;

impl Program for WholeRun {
    fn ask(&self, input: &[u8]) -> Result<Reply, String> {
        let text = std::str::from_utf8(input).map_err(|error| error.to_string())?;
        let script = Script::from_frames(text).map_err(|fault| fault.to_string())?;
        Ok(match answer(&script, text)? {
            Ok(printed) => Reply::Printed(printed.to_string().into_bytes()),
            Err(fault) => Reply::Failed(fault.to_string()),
        })
    }
}

/// What the library says, as it would be printed; or what it left that it should not have.
fn answer(script: &Script, text: &str) -> Result<Result<Printed, &'static str>, String> {
    let frames: Result<Vec<_>, String> = text.lines().map(judge::hex::decode).collect();
    let frames = framed(frames?);
    let mut list = vec![UNWRITTEN; STEP_SIZE * LIST_ROOM];
    let mut totals = [usize::MAX; 2];
    let number = library::run(&frames, &mut list, &mut totals);
    let untouched = |bytes: &[u8]| bytes.iter().all(|&byte| byte == UNWRITTEN);
    if number != 0 {
        let as_it_was = untouched(&list) && totals == [usize::MAX; 2];
        return Ok(if as_it_was { Ok(Printed::Refusal(number)) } else { Err("a refusal wrote") });
    }
    let [steps, counter] = totals;
    let (written, behind) = list.split_at(STEP_SIZE * steps);
    let first =
        written.chunks(STEP_SIZE).map(|step| encoded(step, &script.pool).map(StepBytes::encoded));
    Ok(match first.collect::<Option<Vec<_>>>() {
        None => Err("a step that generation does not make"),
        Some(_) if !untouched(behind) => Err("something stands behind the list"),
        Some(first) => Ok(Printed::List { first, counter: counter as u16 }),
    })
}

/// Compares the random whole runs 0 to `count` - 1 of a seed with the original's.
pub fn compare(seed: u64, count: u64) -> Result<(Tally, Option<Difference>), String> {
    differ(&WholeRun, seed, count)
}

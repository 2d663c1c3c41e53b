//! Contexts that are lent to the constraint polynomial: fresh ones, after commands on the pool.

use crate::search::{caught, fresh_context};
use judge::answer::State;
use judge::script::Command;
use original::starkinfo_codegen::{build_code, pil_code_gen, Context};
use original::types::PIL;

/// The original's names for the two kinds of mark.
const PLAIN_MARK: &str = "exps";
const PRIMED_MARK: &str = "expsPrime";

/// A context after these commands, each of which must be accepted and ask for no result.
pub fn after(pil: &mut PIL, commands: &[Command]) -> Result<Context, String> {
    let mut context = fresh_context();
    for command in commands {
        let done = match command {
            Command::Build => {
                build_code(&mut context, pil);
                Ok(Ok(()))
            }
            Command::Request(request) => caught(|| {
                let expression = usize::from(request.expression);
                pil_code_gen(&mut context, pil, expression, request.prime, "", 0, request.muladd)
            }),
        };
        let refused = |text: String| format!("at `{}`: {}", command, text);
        done.map_err(refused)?.map_err(|error| refused(error.to_string()))?;
    }
    Ok(context)
}

/// What of a context is seen: its counter and its marks.
pub fn state(context: &Context, expressions: usize) -> State {
    let marks = |kind| -> Vec<bool> {
        (0..expressions).map(|e| context.calculated.contains_key(&(kind, e))).collect()
    };
    State { counter: context.tmp_used, plain: marks(PLAIN_MARK), primed: marks(PRIMED_MARK) }
}

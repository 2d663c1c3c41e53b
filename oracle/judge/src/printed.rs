//! What the program `steps` prints, where the original answers its requests.

use crate::answer::{Answer, StepBytes};
use crate::run::run;
use crate::script::{Command, Script};
use std::fmt;

/// Document 01's first bytes of a last line: the temporary counter, or a refusal alone.
const COUNTER_LINE: u8 = 0xfe;
const REFUSAL_LINE: u8 = 0xff;

#[derive(Clone, Debug, PartialEq, Eq)]
pub enum Printed {
    List { first: Vec<StepBytes>, counter: u16 },
    Refusal(u8),
}

impl Printed {
    /// Asks the original for the requests in order and then a build, in a fresh context.
    pub fn of(script: &Script) -> Result<Printed, String> {
        let requests = script.requests().copied().map(Command::Request);
        let commands = requests.chain([Command::Build]).collect();
        let mut answers = run(&Script { pool: script.pool.clone(), commands })?;
        match answers.pop() {
            Some(Answer::Built { first, state, .. }) => {
                let counter = u16::try_from(state.counter)
                    .map_err(|_| format!("a counter of {} has no line", state.counter))?;
                Ok(Printed::List { first, counter })
            }
            Some(Answer::Refused(refusal)) => Ok(Printed::Refusal(refusal.number())),
            last => Err(format!("a run ended with {:?}", last)),
        }
    }
}

impl fmt::Display for Printed {
    fn fmt(&self, f: &mut fmt::Formatter<'_>) -> fmt::Result {
        match self {
            Printed::List { first, counter } => {
                for step in first {
                    writeln!(f, "{}", step)?;
                }
                writeln!(f, "{:02x}{:04x}", COUNTER_LINE, counter)
            }
            Printed::Refusal(number) => writeln!(f, "{:02x}{:02x}", REFUSAL_LINE, number),
        }
    }
}

#[cfg(test)]
mod tests {
    use super::*;

    /// cm0·cm1 + const0', document 01's pool.
    const POOL: &str = "011000000000\n011000000100\n01030000000200000001\n011101000000\n\
                        01010000000200020003\n02000400\n";

    fn printed(requests: &str) -> String {
        let script = Script::from_frames(&format!("{}{}", POOL, requests)).unwrap();
        Printed::of(&script).unwrap().to_string()
    }

    #[test]
    fn document_01_is_printed() {
        assert_eq!(printed("0300000001\n"), "041200000003100000001000010011000001\nfe0000\n");
        assert_eq!(
            printed("0300000000\n"),
            "0320000000021000000010000100\n0112000000022000000011000001\nfe0001\n"
        );
    }

    #[test]
    fn a_refusal_stands_alone() {
        assert_eq!(printed("0300000001\n0300000100\n"), "ff05\n");
        assert_eq!(printed("0300000001\n0300010000\n0300000100\n"), "ff03\n");
    }

    #[test]
    fn no_request_is_answered_too() {
        assert_eq!(printed(""), "fe0000\n");
        assert_eq!(Printed::of(&Script::default()).unwrap().to_string(), "fe0000\n");
    }
}

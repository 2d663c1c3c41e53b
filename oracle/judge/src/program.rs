//! A program under comparison: it reads frames on standard input and prints its answer.

use std::io::{Read, Write};
use std::process::{Child, Command, Stdio};
use std::sync::mpsc;
use std::thread;
use std::time::Duration;

/// How a program ended on an input.
#[derive(Clone, Debug, PartialEq, Eq)]
pub enum Reply {
    Printed(Vec<u8>),
    /// It did not end by itself with status 0.
    Failed(String),
}

impl Reply {
    pub fn is(&self, expected: &str) -> bool {
        matches!(self, Reply::Printed(bytes) if bytes == expected.as_bytes())
    }

    /// The first line that is not as expected, in words.
    pub fn difference(&self, expected: &str) -> String {
        let bytes = match self {
            Reply::Printed(bytes) => bytes,
            Reply::Failed(text) => return text.clone(),
        };
        let printed = String::from_utf8_lossy(bytes);
        let mut wanted = expected.split_inclusive('\n');
        let mut given = printed.split_inclusive('\n');
        let mut line = 0;
        loop {
            line += 1;
            let (wanted, given) = (wanted.next(), given.next());
            if wanted != given || wanted.is_none() {
                let say =
                    |text: Option<&str>| text.map_or("nothing".into(), |t| format!("{:?}", t));
                return format!("line {}: expected {}, printed {}", line, say(wanted), say(given));
            }
        }
    }
}

pub trait Program: Sync {
    /// Fails where the program could not be asked at all.
    fn ask(&self, input: &[u8]) -> Result<Reply, String>;
}

/// A process for each input.
pub struct Process<'a> {
    pub path: &'a str,
}

/// Longer than any answer takes, and larger than any is.
const PATIENCE: Duration = Duration::from_secs(60);
const ROOM: u64 = 16 << 20;

impl Program for Process<'_> {
    fn ask(&self, input: &[u8]) -> Result<Reply, String> {
        let child = Command::new(self.path)
            .stdin(Stdio::piped())
            .stdout(Stdio::piped())
            .stderr(Stdio::null())
            .spawn()
            .map_err(|error| format!("cannot start {}: {}", self.path, error))?;
        converse(child, input).map_err(|error| format!("cannot ask {}: {}", self.path, error))
    }
}

fn converse(mut child: Child, input: &[u8]) -> Result<Reply, std::io::Error> {
    let mut stdin = child.stdin.take().expect("a piped input");
    let stdout = child.stdout.take().expect("a piped output");
    thread::scope(|scope| {
        // A program that refuses need not read to the end: a broken pipe is no fault.
        scope.spawn(move || drop(stdin.write_all(input)));
        let (send, receive) = mpsc::channel();
        scope.spawn(move || {
            let mut bytes = Vec::new();
            let read = stdout.take(ROOM).read_to_end(&mut bytes);
            drop(send.send(read.map(|_| bytes)));
        });
        let bytes = match receive.recv_timeout(PATIENCE) {
            Ok(bytes) => bytes?,
            Err(_) => {
                child.kill()?;
                child.wait()?;
                return Ok(Reply::Failed(format!("no answer in {} s", PATIENCE.as_secs())));
            }
        };
        let status = child.wait()?;
        Ok(if status.success() {
            Reply::Printed(bytes)
        } else {
            Reply::Failed(format!("the program ended with {}", status))
        })
    })
}

#[cfg(test)]
mod tests {
    use super::*;

    fn ask(path: &str, input: &[u8]) -> Result<Reply, String> {
        Process { path }.ask(input)
    }

    #[test]
    fn what_is_printed_comes_back() {
        let large = vec![b'x'; 1 << 20];
        assert_eq!(ask("cat", &large), Ok(Reply::Printed(large)));
    }

    #[test]
    fn an_input_need_not_be_read() {
        assert_eq!(ask("true", &vec![b'x'; 1 << 20]), Ok(Reply::Printed(Vec::new())));
    }

    #[test]
    fn a_bad_end_is_no_answer() {
        assert!(matches!(ask("false", b""), Ok(Reply::Failed(_))));
        assert!(ask("/no/such/program", b"").is_err());
    }

    #[test]
    fn the_first_line_that_differs_is_shown() {
        let reply = |text: &str| Reply::Printed(text.as_bytes().to_vec());
        assert!(reply("01\nfe0000\n").is("01\nfe0000\n"));
        let cases = [
            ("02\nfe0000\n", r#"line 1: expected "01\n", printed "02\n""#),
            ("01\n", r#"line 2: expected "fe0000\n", printed nothing"#),
            ("01\nfe0000", r#"line 2: expected "fe0000\n", printed "fe0000""#),
            ("01\nfe0000\n\n", r#"line 3: expected nothing, printed "\n""#),
        ];
        for (text, difference) in cases {
            assert_eq!(reply(text).difference("01\nfe0000\n"), difference);
        }
    }
}

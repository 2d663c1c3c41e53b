//! Questions as text, and the text read again. The head of vectors/searches.txt says how it is
//! written.

use crate::constraint::Constraint;
use crate::question::Question;
use crate::search::Search;
use asked::question::Lines;
use asked::text::{listed, many, number, numbers};
use judge::hex::{self, Reader};
use judge::pool::{Expression, Node, Pool, EXPRESSION_FRAME, NODE_FRAME};
use judge::script::{Command, Request};
use std::fmt;

/// What the lines of a question have said so far.
#[derive(Default)]
pub struct Said {
    pool: Pool,
    identities: Vec<u16>,
    bits: [u8; 2],
    limit: u64,
    ask: Option<String>,
    /// n_cm1, n_cm2 and nCommitments.
    columns: [u16; 3],
    vc: u16,
    first: Vec<Command>,
    second: Vec<Command>,
}

impl Lines for Said {
    type Question = Question;

    fn take(&mut self, line: &str) -> Result<(), String> {
        let (head, rest) = line.split_once(' ').unwrap_or((line, ""));
        match head {
            "ask" => self.ask = Some(rest.to_string()),
            "identities" => self.identities = listed_numbers(rest)?,
            "bits" => self.bits = numbers(rest)?,
            "limit" => [self.limit] = numbers(rest)?,
            "columns" => self.columns = numbers(rest)?,
            "vc" => [self.vc] = numbers(rest)?,
            "first" => self.first.push(command(rest)?),
            "second" => self.second.push(command(rest)?),
            _ => self.take_frame(&hex::decode(line)?)?,
        }
        Ok(())
    }

    fn question(self) -> Result<Question, String> {
        self.pool.check_links().map_err(|fault| fault.text)?;
        let Said { pool, identities, bits: [n_bits, n_bits_ext], limit, .. } = self;
        let search = Search { pool, identities, n_bits, n_bits_ext, limit };
        let [n_cm1, n_cm2, commitments] = self.columns;
        let Said { vc, first, second, .. } = self;
        match self.ask.as_deref() {
            Some("search") => Ok(Question::Search(search)),
            Some("constraint") => Ok(Question::Constraint(Constraint {
                search,
                n_cm1,
                n_cm2,
                commitments,
                vc,
                first,
                second,
            })),
            Some(name) => Err(format!("nothing is asked by {:?}", name)),
            None => Err("this asks nothing".to_string()),
        }
    }
}

impl Said {
    fn take_frame(&mut self, bytes: &[u8]) -> Result<(), String> {
        let mut reader = Reader::new(bytes);
        match reader.u8()? {
            NODE_FRAME => self.pool.push_node(Node::read(reader)?)?,
            EXPRESSION_FRAME => self.pool.push_expression(Expression::read(reader)?)?,
            other => return Err(format!("no frame begins with {:02x}", other)),
        };
        Ok(())
    }
}

/// A build, or a request that asks for no result.
fn command(rest: &str) -> Result<Command, String> {
    let words: Vec<&str> = rest.split(' ').collect();
    match words[..] {
        ["build"] => Ok(Command::Build),
        ["request", expression, prime, muladd] => Ok(Command::Request(Request {
            expression: number(expression)?,
            prime: number::<u8>(prime)? != 0,
            muladd: number::<u8>(muladd)? != 0,
            asked: None,
        })),
        _ => Err(format!("no command is {:?}", rest)),
    }
}

fn listed_numbers(rest: &str) -> Result<Vec<u16>, String> {
    match rest {
        "-" => Ok(Vec::new()),
        _ => many(rest),
    }
}

impl fmt::Display for Question {
    fn fmt(&self, f: &mut fmt::Formatter<'_>) -> fmt::Result {
        let search = self.search();
        for node in search.pool.nodes() {
            writeln!(f, "{}", hex::encode(&node.frame()))?;
        }
        for expression in search.pool.expressions() {
            writeln!(f, "{}", hex::encode(&expression.frame()))?;
        }
        writeln!(f, "ask {}", self.name())?;
        writeln!(f, "identities {}", listed(&search.identities))?;
        writeln!(f, "bits {} {}\nlimit {}", search.n_bits, search.n_bits_ext, search.limit)?;
        if let Question::Constraint(constraint) = self {
            let Constraint { n_cm1, n_cm2, commitments, vc, .. } = constraint;
            writeln!(f, "columns {} {} {}\nvc {}", n_cm1, n_cm2, commitments, vc)?;
            constraint.first.iter().try_for_each(|command| writeln!(f, "first {}", command))?;
            constraint.second.iter().try_for_each(|command| writeln!(f, "second {}", command))?;
        }
        Ok(())
    }
}

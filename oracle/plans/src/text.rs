//! Questions as text, and the text read again. The head of vectors/plans.txt says how it is written.

use crate::input::{Draft, Input};
use crate::lists::Segment;
use crate::mapped::Record;
use crate::plan::{Intermediate, Plan, Pu, Ratio};
use crate::question::Question;
use crate::walks::Walk;
use asked::question::Lines;
use asked::text::{many, numbers};
use judge::hex::{self, Reader};
use judge::pool::{Expression, Node, EXPRESSION_FRAME, NODE_FRAME};
use std::fmt;

/// What the lines of a question have said so far.
#[derive(Default)]
pub struct Said {
    pool: Draft,
    plan: Plan,
    /// The plan's bytes, where they are said instead.
    bytes: Option<Vec<u8>>,
    ask: Option<String>,
    segment: Segment,
    records: Vec<Record>,
}

impl Lines for Said {
    type Question = Question;

    fn take(&mut self, line: &str) -> Result<(), String> {
        if self.segment.take_line(line)? {
            return Ok(());
        }
        let (head, rest) = line.split_once(' ').unwrap_or((line, ""));
        match head {
            "ask" => self.ask = Some(rest.to_string()),
            "plan" => self.bytes = Some(hex::decode(rest)?),
            "record" => self.records.push(record(rest)?),
            _ if take_of_plan(&mut self.plan, head, rest)? => {}
            _ => self.take_frame(&hex::decode(line)?)?,
        }
        Ok(())
    }

    fn question(self) -> Result<Question, String> {
        let plan = self.bytes.unwrap_or_else(|| self.plan.bytes());
        let input = Input { pool: self.pool, plan };
        match self.ask.as_deref() {
            Some("map") => Ok(Question::Map(input)),
            Some("exp_dims") => Ok(Question::ExpDims(input)),
            Some("sections") => Ok(Question::Sections(self.records)),
            Some(name) => match Walk::ALL.into_iter().find(|walk| walk.name() == name) {
                Some(walk) => Ok(Question::Walk(input, walk, self.segment)),
                None => Err(format!("nothing is asked by {:?}", name)),
            },
            None => Err("this asks nothing".to_string()),
        }
    }
}

impl Said {
    fn take_frame(&mut self, bytes: &[u8]) -> Result<(), String> {
        let mut reader = Reader::new(bytes);
        match reader.u8()? {
            NODE_FRAME => self.pool.nodes.push(Node::read(reader)?),
            EXPRESSION_FRAME => self.pool.expressions.push(Expression::read(reader)?),
            other => return Err(format!("no frame begins with {:02x}", other)),
        }
        Ok(())
    }
}

/// Takes a line of a plan. False if it is no such line.
fn take_of_plan(plan: &mut Plan, head: &str, rest: &str) -> Result<bool, String> {
    match head {
        "bits" => [plan.n_bits, plan.n_bits_ext] = numbers(rest)?,
        "columns" => plan.n_cm = numbers(rest)?,
        "quotient" => [plan.q_deg, plan.c_exp] = numbers(rest)?,
        "pu" => {
            let [f, t, num, den] = numbers(rest)?;
            plan.pu.push(Pu { f, t, ratio: Ratio { num, den } });
        }
        "pe" => plan.pe.push(ratio(rest)?),
        "ci" => plan.ci.push(ratio(rest)?),
        "im" => {
            let [expression, cm] = numbers(rest)?;
            plan.intermediates.push(Intermediate { expression, cm });
        }
        "qs" => plan.qs = many(rest)?,
        "q2exp" => plan.q2exp = many(rest)?,
        _ => return Ok(false),
    }
    Ok(true)
}

fn ratio(rest: &str) -> Result<Ratio, String> {
    let [num, den] = numbers(rest)?;
    Ok(Ratio { num, den })
}

fn record(rest: &str) -> Result<Record, String> {
    let [section, dimension, position] = numbers(rest)?;
    Ok(Record { section, dimension, position })
}

struct PlanLines<'a>(&'a Plan);

impl fmt::Display for PlanLines<'_> {
    fn fmt(&self, f: &mut fmt::Formatter<'_>) -> fmt::Result {
        let plan = self.0;
        writeln!(f, "bits {} {}", plan.n_bits, plan.n_bits_ext)?;
        write_line(f, "columns", &plan.n_cm)?;
        write_line(f, "quotient", &[plan.q_deg, plan.c_exp])?;
        plan.pu.iter().try_for_each(|pu| write_line(f, "pu", &pu.numbers()))?;
        plan.pe.iter().try_for_each(|ratio| write_line(f, "pe", &ratio.numbers()))?;
        plan.ci.iter().try_for_each(|ratio| write_line(f, "ci", &ratio.numbers()))?;
        plan.intermediates.iter().try_for_each(|i| write_line(f, "im", &[i.expression, i.cm]))?;
        let lists = [("qs", &plan.qs), ("q2exp", &plan.q2exp)];
        let mut filled = lists.iter().filter(|(_, list)| !list.is_empty());
        filled.try_for_each(|(name, list)| write_line(f, name, list))
    }
}

fn write_line(f: &mut fmt::Formatter<'_>, name: &str, numbers: &[u16]) -> fmt::Result {
    f.write_str(name)?;
    numbers.iter().try_for_each(|number| write!(f, " {}", number))?;
    writeln!(f)
}

impl fmt::Display for Input {
    fn fmt(&self, f: &mut fmt::Formatter<'_>) -> fmt::Result {
        for frame in self.pool.frames() {
            writeln!(f, "{}", hex::encode(&frame))?;
        }
        match Plan::decode(&self.plan) {
            Some(plan) => PlanLines(&plan).fmt(f),
            None => writeln!(f, "plan {}", hex::encode(&self.plan)),
        }
    }
}

impl fmt::Display for Question {
    fn fmt(&self, f: &mut fmt::Formatter<'_>) -> fmt::Result {
        if let Some(input) = self.input() {
            write!(f, "{}", input)?;
        }
        writeln!(f, "ask {}", self.name())?;
        match self {
            Question::Walk(_, _, segment) => segment.fmt(f),
            Question::Sections(records) => records.iter().try_for_each(|r| {
                writeln!(f, "record {} {} {}", r.section, r.dimension, r.position)
            }),
            Question::Map(_) | Question::ExpDims(_) => Ok(()),
        }
    }
}

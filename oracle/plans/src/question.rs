//! What is asked and answered.

use crate::input::Input;
use crate::lists::Segment;
use crate::mapped::{Mapped, Record};
use crate::original_map::{ask_exp_dims, expected, Panic};
use crate::sections::{ask_sections, Placed};
use crate::tally::Counts;
use crate::text::Said;
use crate::walks::{ask_walk, Walk};
use asked::question::Refused;
use asked::text::listed;
use std::fmt;

#[derive(Clone, Debug, PartialEq, Eq)]
pub enum Question {
    Map(Input),
    /// `get_exp_dim` of every expression, after `map`.
    ExpDims(Input),
    Walk(Input, Walk, Segment),
    Sections(Vec<Record>),
}

/// What is given to a question that is not refused.
#[derive(Clone, Debug, PartialEq, Eq)]
pub enum Given {
    Mapped(Box<Mapped>),
    ExpDims(Vec<usize>),
    Segment(Segment),
    Placed(Box<Placed>),
}

pub type Answer = asked::question::Answer<Given>;

impl Question {
    pub fn name(&self) -> &'static str {
        match self {
            Question::Map(_) => "map",
            Question::ExpDims(_) => "exp_dims",
            Question::Walk(_, walk, _) => walk.name(),
            Question::Sections(_) => "sections",
        }
    }

    pub fn input(&self) -> Option<&Input> {
        match self {
            Question::Map(input) | Question::ExpDims(input) | Question::Walk(input, ..) => {
                Some(input)
            }
            Question::Sections(_) => None,
        }
    }
}

impl asked::question::Question for Question {
    type Lines = Said;
    type Given = Given;

    fn given(&self) -> Result<Given, Refused> {
        let unforeseen =
            |Panic(text): Panic| Refused::Not(format!("the original panics: {}", text));
        match self {
            Question::Map(input) => {
                expected(input).map(|(_, _, mapped)| Given::Mapped(Box::new(mapped)))
            }
            Question::ExpDims(input) => {
                let (pool, plan, mapped) = expected(input)?;
                ask_exp_dims(&pool, &plan, &mapped).map(Given::ExpDims).map_err(unforeseen)
            }
            Question::Walk(input, walk, segment) => {
                let (pool, plan, mapped) = expected(input)?;
                ask_walk(&pool, &plan, &mapped, *walk, segment).map(Given::Segment)
            }
            Question::Sections(records) => {
                ask_sections(records).map(Box::new).map(Given::Placed).map_err(unforeseen)
            }
        }
    }
}

impl asked::question::Given for Given {
    type Counts = Counts;

    fn count_in(&self, counts: &mut Counts) {
        match self {
            Given::Mapped(mapped) => counts.count_records(mapped.records.len()),
            Given::Segment(segment) => counts.count_steps(segment.steps().count()),
            Given::ExpDims(_) | Given::Placed(_) => {}
        }
    }
}

impl fmt::Display for Given {
    fn fmt(&self, f: &mut fmt::Formatter<'_>) -> fmt::Result {
        match self {
            Given::Mapped(mapped) => mapped.fmt(f),
            Given::ExpDims(dims) => writeln!(f, "dims {}", listed(dims)),
            Given::Segment(segment) => segment.fmt(f),
            Given::Placed(placed) => placed.fmt(f),
        }
    }
}

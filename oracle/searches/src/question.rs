//! What is asked and answered.

use crate::constraint::{ask_constraint, Constraint, Made};
use crate::search::{ask_search, Found, Search};
use crate::tally::Counts;
use crate::text::Said;
use asked::question::Refused;
use asked::text::listed;
use std::fmt;

#[derive(Clone, Debug, PartialEq, Eq)]
pub enum Question {
    Search(Search),
    Constraint(Constraint),
}

/// What is given to a question that is not refused.
#[derive(Clone, Debug, PartialEq, Eq)]
pub enum Given {
    Found(Found),
    Made(Box<Made>),
}

pub type Answer = asked::question::Answer<Given>;

impl Question {
    pub fn search(&self) -> &Search {
        match self {
            Question::Search(search) => search,
            Question::Constraint(constraint) => &constraint.search,
        }
    }

    pub fn name(&self) -> &'static str {
        match self {
            Question::Search(_) => "search",
            Question::Constraint(_) => "constraint",
        }
    }

    /// The same with another limit.
    pub fn limited(&self, limit: u64) -> Question {
        let mut question = self.clone();
        match &mut question {
            Question::Search(search) => search.limit = limit,
            Question::Constraint(constraint) => constraint.search.limit = limit,
        }
        question
    }
}

impl asked::question::Question for Question {
    type Lines = Said;
    type Given = Given;

    fn given(&self) -> Result<Given, Refused> {
        match self {
            Question::Search(search) => ask_search(search).map(Given::Found),
            Question::Constraint(constraint) => {
                ask_constraint(constraint).map(Box::new).map(Given::Made)
            }
        }
    }
}

impl asked::question::Given for Given {
    type Counts = Counts;

    fn count_in(&self, counts: &mut Counts) {
        match self {
            Given::Found(found) => counts.count(found),
            Given::Made(made) => counts.count(&made.found),
        }
    }
}

impl fmt::Display for Given {
    fn fmt(&self, f: &mut fmt::Formatter<'_>) -> fmt::Result {
        match self {
            Given::Found(found) => found.fmt(f),
            Given::Made(made) => made.fmt(f),
        }
    }
}

impl fmt::Display for Found {
    fn fmt(&self, f: &mut fmt::Formatter<'_>) -> fmt::Result {
        writeln!(f, "set {}\nq {}\nvisits {}", listed(&self.set), self.q, self.visits)
    }
}

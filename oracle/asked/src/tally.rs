//! Many random questions: how they are answered, and whether something else answers the same.

use crate::question::{Answer, AnswerTo, Given, Question};
use crate::rows::{Rows, ACCEPTED};
use judge::run::on_large_stack;
use std::fmt;

/// A question and the row of the table that it is counted in.
#[derive(Clone, Debug)]
pub struct Labelled<Q> {
    pub label: String,
    pub question: Q,
}

impl<Q> Labelled<Q> {
    pub fn new(label: &str, question: Q) -> Labelled<Q> {
        Labelled { label: label.to_string(), question }
    }
}

/// The questions of an index, or why there are none.
pub type Questions<Q> = Result<Vec<Labelled<Q>>, String>;

/// Answers by row, and what else is counted of those accepted.
#[derive(Clone, Debug, Default, PartialEq, Eq)]
pub struct Tally<C> {
    pub rows: Rows,
    pub counts: C,
}

pub type TallyOf<Q> = Tally<<<Q as Question>::Given as Given>::Counts>;

impl<C> Tally<C> {
    fn count(&mut self, label: String, answer: &Answer<impl Given<Counts = C>>) {
        let number = match answer {
            Answer::Given(given) => {
                given.count_in(&mut self.counts);
                ACCEPTED
            }
            Answer::Refused(number) => *number,
        };
        self.rows.count(&label, number);
    }

    /// How many questions of a row were refused with a number.
    pub fn refused(&self, label: &str, number: u8) -> u64 {
        self.rows.of(label, number)
    }

    pub fn accepted(&self, label: &str) -> u64 {
        self.refused(label, ACCEPTED)
    }
}

/// Asks the questions of so many indices.
pub fn tally<Q: Question>(
    seed: u64,
    count: u64,
    questions: impl Fn(u64, u64) -> Questions<Q> + Sync,
) -> Result<TallyOf<Q>, String> {
    each(seed, count, questions, |_, _| Ok(true)).map(|(tally, _)| tally)
}

/// What is compared says to a question: its answer, or none where it is not to be asked; or what else
/// is wrong with it.
pub type Said<A> = Result<Option<A>, String>;

/// A tally, and the first difference.
pub type Compared<Q> = Result<(TallyOf<Q>, Option<String>), String>;

/// Asks the same of the original and of something else, up to the first difference. What is not asked
/// is not counted.
pub fn compare<Q: Question>(
    seed: u64,
    count: u64,
    questions: impl Fn(u64, u64) -> Questions<Q> + Sync,
    port: impl Fn(&Q) -> Said<AnswerTo<Q>> + Sync,
) -> Compared<Q> {
    each(seed, count, questions, |question, answer| {
        let given = port(question).map_err(|text| format!("{}{}", question, text))?;
        match given {
            Some(given) if given != *answer => {
                Err(format!("{}expected is\n{}and given\n{}", question, answer, given))
            }
            given => Ok(given.is_some()),
        }
    })
}

/// Shows each question with its answer, up to the first where there is something to tell, and counts
/// those that are to be counted.
fn each<Q: Question>(
    seed: u64,
    count: u64,
    questions: impl Fn(u64, u64) -> Questions<Q> + Sync,
    told: impl Fn(&Q, &AnswerTo<Q>) -> Result<bool, String> + Sync,
) -> Compared<Q> {
    on_large_stack(|| {
        let mut tally = TallyOf::<Q>::default();
        for index in 0..count {
            let place = |text: String| format!("input {} of seed {}: {}", index, seed, text);
            for Labelled { label, question } in questions(seed, index).map_err(place)? {
                let answer =
                    question.ask().map_err(|text| place(format!("{}\n{}", text, question)))?;
                match told(&question, &answer) {
                    Ok(true) => tally.count(label, &answer),
                    Ok(false) => {}
                    Err(text) => return Ok((tally, Some(place(text)))),
                }
            }
        }
        Ok((tally, None))
    })
}

impl<C: fmt::Display> fmt::Display for Tally<C> {
    fn fmt(&self, f: &mut fmt::Formatter<'_>) -> fmt::Result {
        write!(f, "{}\n{}", self.rows, self.counts)
    }
}

//! Many random questions: how they are answered, and whether something else answers the same.

use crate::question::{Answer, Question};
use crate::random;
use crate::search::Found;
use std::collections::BTreeMap;
use std::fmt;

pub use asked::tally::compare;
pub type Labelled = asked::tally::Labelled<Question>;
pub type Questions = asked::tally::Questions<Question>;
pub type Said = asked::tally::Said<Answer>;
pub type Tally = asked::tally::Tally<Counts>;

/// Accepted searches by the members of their set and by their q, and their visits.
#[derive(Clone, Debug, Default, PartialEq, Eq)]
pub struct Counts {
    members: BTreeMap<usize, u64>,
    quotients: BTreeMap<usize, u64>,
    visits: u64,
    most_visits: u64,
}

impl Counts {
    pub fn count(&mut self, found: &Found) {
        *self.members.entry(found.set.len()).or_default() += 1;
        *self.quotients.entry(found.q).or_default() += 1;
        self.visits += found.visits;
        self.most_visits = self.most_visits.max(found.visits);
    }
}

/// The questions of this seed and index: a search, and of every fourth index a constraint.
pub fn questions(seed: u64, index: u64) -> Questions {
    let mut questions = vec![Question::Search(random::search(seed, index))];
    if index % 4 == 0 {
        questions.push(Question::Constraint(random::constraint(seed, index / 4)));
    }
    Ok(questions.into_iter().map(|question| Labelled::new(question.name(), question)).collect())
}

/// Asks the questions of so many indices.
pub fn tally(seed: u64, count: u64) -> Result<Tally, String> {
    asked::tally::tally(seed, count, questions)
}

impl fmt::Display for Counts {
    fn fmt(&self, f: &mut fmt::Formatter<'_>) -> fmt::Result {
        write!(f, "Accepted by members of the set:")?;
        self.members
            .iter()
            .try_for_each(|(members, count)| write!(f, " {}: {}", members, count))?;
        write!(f, "\nAccepted by q:")?;
        self.quotients.iter().try_for_each(|(q, count)| write!(f, " {}: {}", q, count))?;
        writeln!(f, "\nVisits of these: {}, most in one: {}", self.visits, self.most_visits)
    }
}

#[cfg(test)]
mod tests {
    use super::*;
    use crate::question::Given;
    use asked::checks;
    use asked::question::Question as _;
    use judge::refusals::*;

    const SEED: u64 = 3;
    const COUNT: u64 = 600;

    #[test]
    fn every_refusal_is_reached_and_sets_have_several_members() {
        let tally = tally(SEED, COUNT).unwrap();
        for number in [NOT_THERE, SEARCH_KIND, NO_SET, NO_QUOTIENT, VISITS, BITS, NO_IDENTITY] {
            assert!(tally.refused("search", number) > 0, "{}\n{}", number, tally);
        }
        for number in [DOUBLE_PRIME, COUNTS] {
            assert!(tally.refused("constraint", number) > 0, "{}\n{}", number, tally);
        }
        assert!(tally.accepted("search") > COUNT / 3, "{}", tally);
        assert!(tally.accepted("constraint") > COUNT / 16, "{}", tally);
        assert!((0..4).all(|members| tally.counts.members.contains_key(&members)), "{}", tally);
    }

    fn original(question: &Question) -> Said {
        question.ask().map(Some)
    }

    #[test]
    fn the_original_equals_itself() {
        let (compared, difference) = compare(SEED, 50, questions, original).unwrap();
        assert_eq!(difference, None);
        assert_eq!(Ok(compared), tally(SEED, 50));
    }

    fn finds(change: impl Fn(&mut Answer) + Sync) -> bool {
        checks::finds(SEED, COUNT, questions, change)
    }

    #[test]
    fn a_changed_answer_is_found() {
        let changes: [fn(&mut Found); 3] = [
            |found| found.visits += 1,
            |found| found.q = found.q.min(2),
            |found| found.set.truncate(1),
        ];
        for change in changes {
            assert!(finds(|answer| {
                if let Answer::Given(Given::Found(found)) = answer {
                    change(found);
                }
            }));
        }
    }

    #[test]
    fn a_refusal_in_place_of_another_is_found() {
        for number in
            [NOT_THERE, SEARCH_KIND, NO_SET, NO_QUOTIENT, BITS, NO_IDENTITY, DOUBLE_PRIME, COUNTS]
        {
            assert!(finds(|answer| {
                if *answer == Answer::Refused(number) {
                    *answer = Answer::Refused(VISITS);
                }
            }));
        }
    }

    /// A fall-through that looks like an answer, the tie at equal size the other way, a limit one off.
    #[test]
    fn a_wrong_port_is_found() {
        let wrong = |question: &Question| {
            let limit = question.search().limit;
            original(&question.limited(limit.saturating_add(1)))
        };
        assert!(compare(SEED, COUNT, questions, wrong).unwrap().1.is_some());
        assert!(finds(|answer| {
            if *answer == Answer::Refused(NO_SET) {
                let found = Found { set: Vec::new(), q: 0, visits: 14 };
                *answer = Answer::Given(Given::Found(found));
            }
        }));
    }

    #[test]
    fn questions_depend_on_seed_and_index_only() {
        checks::depend_on_seed_and_index_only(questions);
    }
}

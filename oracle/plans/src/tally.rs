//! Many random questions: how they are answered, and whether something else answers the same.

use crate::input::Input;
use crate::question::{Answer, Question};
use crate::random;
use crate::random_lists;
use crate::walks::Walk;
use asked::question::Question as _;
use judge::random::Random;
use std::fmt;

pub use asked::tally::compare;
pub type Labelled = asked::tally::Labelled<Question>;
pub type Questions = asked::tally::Questions<Question>;
pub type Said = asked::tally::Said<Answer>;
pub type Tally = asked::tally::Tally<Counts>;

/// The questions of this seed and index. Call it on a large stack.
pub fn questions(seed: u64, index: u64) -> Questions {
    let random = &mut Random::new(seed, index);
    let input = random::input(random);
    questions_on(random, input)
}

/// Questions that are all on one input, but for the sections.
pub fn questions_on(random: &mut Random, input: Input) -> Questions {
    let mut questions = vec![
        Labelled::new("map", Question::Map(input.clone())),
        Labelled::new("sections", Question::Sections(random_lists::records(random))),
    ];
    let is_accepted = matches!(questions[0].question.ask()?, Answer::Given(_));
    match input.admitted() {
        Ok((pool, plan)) if is_accepted => {
            questions.push(Labelled::new("exp_dims", Question::ExpDims(input.clone())));
            let generated = random_lists::generated(random, &pool)?;
            for walk in Walk::ALL {
                let any = random_lists::any(random, &pool, &plan, walk);
                for (made, segment) in [("generated", generated.clone()), ("any", any)] {
                    let question = Question::Walk(input.clone(), walk, segment);
                    questions.push(Labelled::new(&format!("{}, {}", walk.name(), made), question));
                }
            }
        }
        _ => questions.push(on_a_refused_plan(random, input)),
    }
    Ok(questions)
}

fn on_a_refused_plan(random: &mut Random, input: Input) -> Labelled {
    let walk = random.pick(&Walk::ALL);
    Labelled::new("any walk, plan refused", Question::Walk(input, walk, Default::default()))
}

/// Of an accepted plan the most records, and of accepted lists all steps and the most.
#[derive(Clone, Debug, Default, PartialEq, Eq)]
pub struct Counts {
    most_records: usize,
    steps: usize,
    most_steps: usize,
}

impl Counts {
    pub fn count_records(&mut self, records: usize) {
        self.most_records = self.most_records.max(records);
    }

    pub fn count_steps(&mut self, steps: usize) {
        self.steps += steps;
        self.most_steps = self.most_steps.max(steps);
    }
}

/// Asks the questions of so many indices.
pub fn tally(seed: u64, count: u64) -> Result<Tally, String> {
    asked::tally::tally(seed, count, questions)
}

impl fmt::Display for Counts {
    fn fmt(&self, f: &mut fmt::Formatter<'_>) -> fmt::Result {
        writeln!(f, "Most records of a plan: {}", self.most_records)?;
        writeln!(
            f,
            "Steps of accepted lists: {}, most in a segment: {}",
            self.steps, self.most_steps
        )
    }
}

#[cfg(test)]
mod tests {
    use super::*;
    use crate::lists::{Reference, Segment, Step};
    use crate::mapped::Mapped;
    use crate::question::Given;
    use crate::walks::Domain;
    use asked::checks;
    use judge::refusals::*;

    const SEED: u64 = 3;
    const COUNT: u64 = 500;

    #[test]
    fn every_refusal_is_reached_and_most_plans_are_accepted() {
        let tally = tally(SEED, COUNT).unwrap();
        for number in [MALFORMED, CHILD_COUNT, NOT_THERE, CYCLE, FULL, COUNTS, NO_DIMENSION, BITS] {
            assert!(tally.refused("map", number) > 0, "{}\n{}", number, tally);
        }
        assert!(tally.accepted("map") > COUNT / 2, "{}", tally);
        for walk in Walk::ALL {
            let any = format!("{}, any", walk.name());
            let generated = format!("{}, generated", walk.name());
            for number in [NOT_THERE, NO_RULE] {
                assert!(tally.refused(&any, number) > 0, "{}, {}\n{}", any, number, tally);
            }
            assert!(tally.accepted(&any) > COUNT / 10, "{}\n{}", any, tally);
            assert!(tally.accepted(&generated) > COUNT / 10, "{}\n{}", generated, tally);
        }
        assert!(tally.refused("dims, any", NO_DIMENSION) > 0, "{}", tally);
        assert!(tally.refused("fix n, any", FULL) > 0, "{}", tally);
    }

    fn original(question: &Question) -> Answer {
        question.ask().expect("an answer")
    }

    #[test]
    fn the_original_equals_itself() {
        let same = |question: &Question| Ok(Some(original(question)));
        let (compared, difference) = compare(SEED, 50, questions, same).unwrap();
        assert_eq!(difference, None);
        assert_eq!(Ok(compared), tally(SEED, 50));
    }

    fn finds(change: impl Fn(&mut Answer) + Sync) -> bool {
        checks::finds(SEED, COUNT, questions, change)
    }

    #[test]
    fn a_changed_plan_is_found() {
        let changes: [fn(&mut Mapped); 5] = [
            |mapped| mapped.records[0].position += 1,
            |mapped| mapped.total += 1,
            |mapped| mapped.exp2pol.iter_mut().for_each(|column| column.record += 1),
            |mapped| mapped.temporary_columns.reverse(),
            |mapped| mapped.cm_dims.reverse(),
        ];
        for change in changes {
            assert!(finds(|answer| {
                if let Answer::Given(Given::Mapped(mapped)) = answer {
                    change(mapped);
                }
            }));
        }
    }

    #[test]
    fn a_changed_position_is_found() {
        assert!(finds(|answer| {
            if let Answer::Given(Given::Placed(placed)) = answer {
                placed.positions.iter_mut().for_each(|position| *position += 1);
            }
        }));
    }

    fn sources(list: &mut [Step]) -> impl Iterator<Item = &mut Reference> {
        list.iter_mut().flat_map(|step| &mut step.src)
    }

    #[test]
    fn a_changed_reference_is_found() {
        let changes: [fn(&mut Segment); 5] = [
            |segment| segment.first.iter_mut().for_each(|step| step.dest.prime = false),
            |segment| segment.last.iter_mut().for_each(|step| step.dest.exp_id = 0),
            |segment| sources(&mut segment.i).for_each(|source| source.p = 0),
            |segment| sources(&mut segment.i).for_each(|source| source.dim = 0),
            |segment| sources(&mut segment.i).for_each(|source| source.tree_pos = 0),
        ];
        for change in changes {
            assert!(finds(|answer| {
                if let Answer::Given(Given::Segment(segment)) = answer {
                    change(segment);
                }
            }));
        }
    }

    #[test]
    fn a_refusal_in_place_of_another_is_found() {
        for number in [MALFORMED, CHILD_COUNT, CYCLE, FULL, NO_RULE, COUNTS, NO_DIMENSION, BITS] {
            assert!(finds(|answer| {
                if *answer == Answer::Refused(number) {
                    *answer = Answer::Refused(NOT_THERE);
                }
            }));
        }
    }

    #[test]
    fn the_domain_is_seen() {
        let differs = compare(SEED, COUNT, questions, |question| match question {
            Question::Walk(input, Walk::Fix(Domain::N), segment) => {
                let other = Walk::Fix(Domain::TwoNs);
                Ok(Some(original(&Question::Walk(input.clone(), other, segment.clone()))))
            }
            _ => Ok(None),
        });
        assert!(differs.unwrap().1.is_some());
    }

    #[test]
    fn questions_depend_on_seed_and_index_only() {
        checks::depend_on_seed_and_index_only(questions);
    }
}

//! Vectors: questions stored with their answers.

use crate::question::Question;

pub type Case = asked::vectors::Case<Question>;

#[cfg(test)]
mod tests {
    use super::*;
    use asked::checks::{self, difference};

    const ONE: &str = "\
vector one
ask sections
record 0 2 5
answers
positions 0
n1 0 0 0 0 0 0 0 0 0 0 0
n 2 0 0 0 0 0 0 0 0 0 0
n3 0 0 0 0 0 0 0 0 0 0 0
end
";

    #[test]
    fn a_wrong_answer_is_shown() {
        assert_eq!(difference::<Question>(ONE), None);
        let text = difference::<Question>(&ONE.replace("positions 0", "positions 5")).unwrap();
        assert_eq!(text, "stored `positions 5`, the original says `positions 0`");
        assert!(difference::<Question>(&ONE.replace("positions 0\n", "")).is_some());
        assert!(difference::<Question>(&ONE.replace("record 0 2 5", "record 0 3 5")).is_some());
    }

    #[test]
    fn malformed_questions_are_named_by_line() {
        checks::malformed_questions_are_named_by_line::<Question>();
    }
}

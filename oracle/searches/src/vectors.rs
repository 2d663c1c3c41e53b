//! Vectors: questions stored with their answers.

use crate::question::Question;

pub type Case = asked::vectors::Case<Question>;

#[cfg(test)]
mod tests {
    use super::*;
    use asked::checks::{self, are_faults, difference};

    const ONE: &str = "\
vector one
011000000000
02000000
ask search
identities 0
bits 3 3
limit 9
answers
set -
q 0
visits 2
end
";

    #[test]
    fn a_wrong_answer_is_shown() {
        assert_eq!(difference::<Question>(ONE), None);
        let text = difference::<Question>(&ONE.replace("visits 2", "visits 3")).unwrap();
        assert_eq!(text, "stored `visits 3`, the original says `visits 2`");
        assert!(difference::<Question>(&ONE.replace("limit 9", "limit 1")).is_some());
        assert!(difference::<Question>(&ONE.replace("011000000000", "011500000000")).is_some());
    }

    #[test]
    fn malformed_questions_are_named_by_line() {
        checks::malformed_questions_are_named_by_line::<Question>();
        let text = "vector a\nfirst 03\nanswers\nend\n";
        are_faults::<Question>(&[(text, "line 2: no command is \"03\"")]);
    }
}

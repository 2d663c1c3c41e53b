//! For tests: what holds of a file of vectors, and of random questions.

use crate::question::{AnswerTo, Question};
use crate::tally::{compare, Labelled, Questions, Said};
use crate::vectors::{parse, Vector};
use judge::run::on_large_stack;
use judge::script::numbered;

/// Makes the text of a stored file.
pub type Make = fn() -> Result<String, String>;

pub fn is_what_is_written(path: &str, make: Make, most_bytes: usize) {
    let stored = std::fs::read_to_string(path).expect("the stored vectors");
    let written = on_large_stack(make).unwrap();
    assert!(written == stored, "{} is not what is made", path);
    assert!(stored.len() < most_bytes, "{} bytes", stored.len());
}

/// Some vector's name begins with each of these.
pub fn has_names<Q: Question>(make: Make, heads: impl Iterator<Item = String>) {
    let vectors: Vec<Vector<Q>> = parse(&on_large_stack(make).unwrap()).unwrap();
    for head in heads {
        assert!(vectors.iter().any(|vector| vector.case.name.starts_with(&head)), "{}", head);
    }
}

pub fn is_read_as_written<Q: Question>(make: Make) {
    let written = on_large_stack(make).unwrap();
    let said =
        |text: &str| -> Vec<String> { numbered(text).map(|(_, line)| line.to_string()).collect() };
    let vectors: Vec<Vector<Q>> = parse(&written).unwrap();
    let read: String = vectors.iter().map(Vector::to_string).collect();
    assert_eq!(said(&read), said(&written));
}

/// What the first of these vectors differs in.
pub fn difference<Q: Question>(text: &str) -> Option<String> {
    let difference = || {
        let vector = &parse::<Q>(text).expect("vectors")[0];
        let answer = vector.case.question.ask()?.to_string();
        Ok(vector.difference(&answer).map(|difference| difference.to_string()))
    };
    on_large_stack(difference).unwrap()
}

/// What is asked besides gives the stored answer to each vector of a file that it is to be asked, and these are many.
pub fn answers_the_stored_vectors<Q: Question>(path: &str, say: impl Fn(&Q) -> Said<AnswerTo<Q>>) {
    let text = std::fs::read_to_string(path).expect("the stored vectors");
    let mut asked = 0;
    for vector in parse::<Q>(&text).unwrap() {
        if let Some(answer) = say(&vector.case.question).unwrap() {
            assert_eq!(answer.to_string(), vector.answer, "{}", vector.case.name);
            asked += 1;
        }
    }
    assert!(asked > 300, "{} vectors", asked);
}

/// Each of these texts is malformed, for the reason beside it.
pub fn are_faults<Q: Question>(texts: &[(&str, &str)]) {
    for (text, reason) in texts {
        let fault = parse::<Q>(text).err().map(|fault| fault.to_string());
        assert_eq!(fault.as_deref(), Some(*reason), "{}", text);
    }
}

/// What no question of `plans` or `searches` may say.
pub fn malformed_questions_are_named_by_line<Q: Question>() {
    are_faults::<Q>(&[
        ("vector a\nanswers\nend\n", "line 1: this asks nothing"),
        ("vector a\nask mop\nanswers\nend\n", "line 1: nothing is asked by \"mop\""),
        ("vector a\nbits 1\nanswers\nend\n", "line 2: 2 numbers come here"),
        ("vector a\nbits 1 256\nanswers\nend\n", "line 2: \"256\" is no number that fits here"),
        ("vector a\n03\nanswers\nend\n", "line 2: no frame begins with 03"),
    ]);
}

/// Whether a comparison finds the original, changed in what it answers.
pub fn finds<Q: Question>(
    seed: u64,
    count: u64,
    questions: impl Fn(u64, u64) -> Questions<Q> + Sync,
    change: impl Fn(&mut AnswerTo<Q>) + Sync,
) -> bool {
    let changed = |question: &Q| {
        let mut answer = question.ask()?;
        change(&mut answer);
        Ok(Some(answer))
    };
    compare(seed, count, questions, changed).unwrap().1.is_some()
}

pub fn depend_on_seed_and_index_only<Q: Question>(
    questions: impl Fn(u64, u64) -> Questions<Q> + Sync,
) {
    let text = |seed, index| {
        let text = |labelled: Labelled<Q>| labelled.question.to_string();
        let asked = || Ok(questions(seed, index)?.into_iter().map(text).collect::<String>());
        on_large_stack(asked).unwrap()
    };
    assert_eq!(text(7, 4), text(7, 4));
    assert_ne!(text(7, 3), text(7, 4));
    assert_ne!(text(7, 4), text(8, 4));
}

//! The port's answers to questions about searches.

use crate::record::{pool_frames, UNWRITTEN_WORD};
use crate::spread;
use enonkasse_sys::{self as library, MAX_EXPRESSIONS, SET_BIT_WORDS, SET_WORDS};
use judge::random::Random;
use searches::question::{Answer, Given, Question};
use searches::search::{visits_needed, Found, Search};
use searches::tally::{Labelled, Questions, Said, Tally};

/// One search of so many has its expressions spread.
const SPREAD_EVERY: u64 = 4;

/// Limits are tried around the visits of searches that need at most so many.
const FEW_VISITS: u64 = 5_000;

/// Random searches, each also with one visit less than it needs, as many and one more, and some with
/// large numbers.
pub fn questions(seed: u64, index: u64) -> Questions {
    let mut search = searches::random::search(seed, index);
    let mut label = "search";
    if index % SPREAD_EVERY == 0 {
        search = spread::search(&mut Random::new(seed, !index), &search);
        label = "search, spread";
    }
    let mut limits = vec![(label, search.limit)];
    if let Some(needed) = visits_needed(&Search { limit: FEW_VISITS, ..search.clone() }) {
        if needed > 0 {
            limits.push(("one visit less", needed - 1));
        }
        limits.extend([("as many visits", needed), ("one visit more", needed + 1)]);
    }
    let question = |limit| Question::Search(Search { limit, ..search.clone() });
    let labelled = |(label, limit)| Labelled::new(label, question(limit));
    Ok(limits.into_iter().map(labelled).collect())
}

/// Compares so many random searches with the original, up to the first difference.
pub fn compare(seed: u64, count: u64) -> Result<(Tally, Option<String>), String> {
    searches::tally::compare(seed, count, questions, say)
}

/// To a search; the constraint is compared by itself.
pub fn say(question: &Question) -> Said {
    match question {
        Question::Search(search) => Ok(Some(match found(search)? {
            Ok((found, _)) => Answer::Given(Given::Found(found)),
            Err(number) => Answer::Refused(number),
        })),
        Question::Constraint(_) => Ok(None),
    }
}

pub fn identities(search: &Search) -> Vec<u64> {
    search.identities.iter().map(|&e| e.into()).collect()
}

/// The words of a set.
pub type Chosen = [u64; SET_WORDS];

/// What the search finds, with the set as it is lent, or its refusal; or what is wrong with what it left.
pub fn found(search: &Search) -> Result<Result<(Found, Chosen), u8>, String> {
    let frames = pool_frames(&search.pool);
    let (mut chosen, mut found) = ([UNWRITTEN_WORD; SET_WORDS], [UNWRITTEN_WORD; 2]);
    let number = library::search(
        &frames,
        &identities(search),
        search.n_bits.into(),
        search.n_bits_ext.into(),
        search.limit,
        &mut chosen,
        &mut found,
    );
    if number == 0 {
        let [q, visits] = found;
        let set = members(&chosen);
        if chosen[SET_BIT_WORDS] != set.len() as u64 {
            return Err(format!(
                "{} members are counted as {}\n",
                set.len(),
                chosen[SET_BIT_WORDS]
            ));
        }
        return Ok(Ok((Found { set, q: q as usize, visits }, chosen)));
    }
    if chosen != [UNWRITTEN_WORD; SET_WORDS] || found != [UNWRITTEN_WORD; 2] {
        return Err(format!("refused with {}, and what was lent has changed\n", number));
    }
    Ok(Err(number))
}

pub fn members(chosen: &Chosen) -> Vec<usize> {
    (0..MAX_EXPRESSIONS).filter(|e| chosen[e / 64] >> (e % 64) & 1 == 1).collect()
}

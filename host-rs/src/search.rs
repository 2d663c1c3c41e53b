//! The degree search.

use crate::frames::Frames;
use crate::pool::ExpressionId;
use crate::refusal::Refusal;
use enonkasse_sys::{self as library, MAX_EXPRESSIONS, SET_BIT_WORDS, SET_WORDS};

/// What a search found.
#[derive(Clone, Debug, PartialEq, Eq, Hash)]
pub struct Found {
    /// The expressions to get a column of their own, ascending.
    pub set: Vec<ExpressionId>,
    /// The quotient's degree.
    pub q: u64,
    /// The calls of the degree rule that it took.
    pub visits: u64,
}

impl Found {
    /// The members of a set as the library gives it, ascending.
    pub(crate) fn members(words: &[u64; SET_WORDS]) -> Vec<ExpressionId> {
        let is_in = |&e: &u16| words[usize::from(e / 64)] >> (e % 64) & 1 == 1;
        (0..MAX_EXPRESSIONS as u16).filter(is_in).map(ExpressionId).collect()
    }

    /// The set as the library takes it: a bit for each expression, then how many there are.
    pub(crate) fn words(&self) -> [u64; SET_WORDS] {
        let mut words = [0; SET_WORDS];
        for expression in self.set.iter().map(|e| usize::from(e.0)).filter(|&e| e < MAX_EXPRESSIONS)
        {
            words[expression / 64] |= 1 << (expression % 64);
        }
        words[SET_BIT_WORDS] = self.set.len() as u64;
        words
    }
}

/// Searches for the columns that bring the degree of the identities down, in at most `limit` visits.
///
/// # Errors
///
/// The pool's refusal; 17, 16, 3 of the arguments; 15 and 6 of a visit; 13 and 14 of the end.
pub fn search(
    frames: &Frames,
    identities: &[ExpressionId],
    n_bits: u8,
    n_bits_ext: u8,
    limit: u64,
) -> Result<Found, Refusal> {
    let identities: Vec<u64> = identities.iter().map(|expression| expression.0.into()).collect();
    let (mut chosen, mut found) = ([0; SET_WORDS], [0; 2]);
    Refusal::check(library::search(
        frames.bytes(),
        &identities,
        n_bits.into(),
        n_bits_ext.into(),
        limit,
        &mut chosen,
        &mut found,
    ))?;
    let [q, visits] = found;
    Ok(Found { set: Found::members(&chosen), q, visits })
}

#[cfg(test)]
mod tests {
    use super::*;

    #[test]
    fn a_refusal_changes_nothing_lent() {
        let (mut chosen, mut found) = ([7; SET_WORDS], [8; 2]);
        let answer = library::search(&[], &[], 3, 3, 10, &mut chosen, &mut found);
        assert_eq!((answer, chosen, found), (17, [7; SET_WORDS], [8; 2]));
    }
}

//! Refusals: the numbers of document 01, with what each says.

use crate::numbered::numbered;
use std::error::Error;
use std::fmt;

numbered! {
    /// Why a call was refused. What was lent to the call is as it was before.
    Refusal {
        Malformed = 1,
            "malformed frame or record: unknown kind, frames out of order, a prime, muladd or next byte \
             not 0 or 1, expression flags above 7, an unused id not 0, minus zero, literal out of range, \
             modulus below 2";
        ChildCount = 2, "child count differs from the table";
        NotThere = 3,
            "child not earlier, node used twice, or a root or expression number not there; for a plan, \
             also a cm or q leaf's number not in it, or a cm or q number looked up for a list and not there";
        Cycle = 4,
            "exp leaves form a cycle; for a plan, exp leaves and q leaves (through their expressions) \
             together";
        DoublePrime = 5, "a primed evaluation reaches a cm, const, exp or q leaf with next";
        SearchKind = 6,
            "the search meets q, xDivXSubXi or xDivXSubWXi in a visit with a set or in a full degree, or \
             visits eval or muladd with a set";
        NoPrimedMark = 7, "result asked for a primed request whose expression has no primed mark";
        NoBlock = 8, "result asked for a marked expression without a block";
        Full = 9, "the whole answer does not fit the lent space, or a pool or plan its limit";
        NoRule = 10,
            "a dimension pass or the evaluator reads an unwritten temporary; fixing, a dimension pass or \
             the evaluator meets a kind or step it has no rule for; the evaluator also reads a cell neither \
             written nor given a value";
        Counts = 11, "plan counts disagree";
        NoDimension = 12, "a record of a plan, or a source in a dimension pass, gets dimension 0";
        NoSet = 13, "every d yields no set";
        NoQuotient = 14, "the kept q is -1";
        Visits = 15, "the visits needed pass the caller's limit";
        Bits = 16, "nBits or nBitsExt out of range";
        NoIdentity = 17, "no identity";
    }
    /// Its number in document 01.
    number
    /// The refusal of a number, if one has it.
    from_number
    /// What it says, in document 01's words.
    meaning
}

impl Refusal {
    /// The library's answer: 0 is no refusal.
    pub(crate) fn check(answer: u8) -> Result<(), Refusal> {
        match answer {
            0 => Ok(()),
            number => Err(Refusal::from_number(number).expect("a number of document 01")),
        }
    }
}

impl fmt::Display for Refusal {
    fn fmt(&self, f: &mut fmt::Formatter<'_>) -> fmt::Result {
        write!(f, "refusal {}: {}", self.number(), self.meaning())
    }
}

impl Error for Refusal {}

#[cfg(test)]
mod tests {
    use super::*;

    #[test]
    fn numbers_are_read_back() {
        let numbers = Refusal::ALL.iter().map(|refusal| refusal.number());
        assert!(numbers.eq(1..=17));
        assert!((0..=u8::MAX).filter_map(Refusal::from_number).eq(Refusal::ALL.iter().copied()));
    }

    #[test]
    fn it_says_its_number_and_meaning() {
        assert_eq!(Refusal::NoIdentity.to_string(), "refusal 17: no identity");
        assert!(Refusal::ALL.iter().all(|refusal| !refusal.meaning().contains("  ")));
    }
}

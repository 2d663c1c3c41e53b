//! The degree search, asked of the original twice: its own whole run, and the degree rule with its
//! visits counted, put into the original's loop here. The two must not contradict each other.

use asked::bits;
use asked::question::Refused;
use judge::pool::Pool;
use judge::refusals::{BITS, NOT_THERE, NO_IDENTITY, NO_QUOTIENT, NO_SET, SEARCH_KIND, VISITS};
use judge::run::{pil, text_of};
use original::counted;
use original::expressionops::ExpressionOps as E;
use original::starkinfo::{Program, StarkInfo};
use original::starkinfo_codegen::Context;
use original::types::{Expression, PolIdentity, StarkStruct, PIL};
use original::visits;
use std::collections::HashMap;
use std::fmt::Debug;
use std::panic::{self, AssertUnwindSafe};

/// The original's word for a kind that the degree rule or the full degree has no rule for.
const NO_KIND: &str = "Exp op not defined: ";

/// The original's word where it asks for 2^64 - 1 quotient columns.
const TOO_MANY_COLUMNS: &str = "capacity overflow";

#[derive(Clone, Debug, PartialEq, Eq)]
pub struct Search {
    pub pool: Pool,
    /// Numbers of expressions.
    pub identities: Vec<u16>,
    pub n_bits: u8,
    pub n_bits_ext: u8,
    pub limit: u64,
}

#[derive(Clone, Debug, PartialEq, Eq)]
pub struct Found {
    /// Expressions, ascending.
    pub set: Vec<usize>,
    pub q: usize,
    pub visits: u64,
}

/// A set that the original keeps, and its q as the original holds it: -1 is 2^64 - 1.
#[derive(Clone, Debug, PartialEq, Eq)]
pub struct Kept {
    pub set: Vec<usize>,
    pub q: usize,
}

impl Kept {
    fn cost(&self) -> u128 {
        self.set.len() as u128 + self.q as u128
    }
}

/// What a call of the original that may panic gives.
pub fn caught<T>(call: impl FnOnce() -> T) -> Result<T, String> {
    panic::catch_unwind(AssertUnwindSafe(call)).map_err(text_of)
}

impl Search {
    /// The refusals that come before the first visit.
    fn admitted(&self) -> Result<(), Refused> {
        let refused = |number| Err(Refused::With(number));
        if self.identities.is_empty() {
            return refused(NO_IDENTITY);
        }
        if !bits::in_range(self.n_bits, self.n_bits_ext) {
            return refused(BITS);
        }
        let expressions = self.pool.expressions().len();
        if self.identities.iter().any(|&identity| usize::from(identity) >= expressions) {
            return refused(NOT_THERE);
        }
        Ok(())
    }

    /// The pool as the original holds it, with the identities.
    pub fn pil(&self) -> PIL {
        let identity = |&e: &u16| PolIdentity { e: e.into(), fileName: String::new(), line: 0 };
        PIL { polIdentities: self.identities.iter().map(identity).collect(), ..pil(&self.pool) }
    }

    pub fn rows(&self) -> StarkStruct {
        StarkStruct {
            nBits: self.n_bits.into(),
            nBitsExt: self.n_bits_ext.into(),
            ..StarkStruct::default()
        }
    }

    /// The pool, and the identities folded as vc·c + e.
    pub fn folded(&self) -> Folded {
        let vc = E::challenge("vc".to_string());
        let mut leaves = self.identities.iter().map(|&e| E::exp(e.into(), None));
        let first = leaves.next().expect("an identity");
        let c_exp = leaves.fold(first, |c, e| E::add(&E::mul(&vc, &c), &e));
        Folded { pil: self.pil(), c_exp, largest_d: (1 << (self.n_bits_ext - self.n_bits)) + 1 }
    }
}

/// What the original's degree rule gives: a set, if there is one, and q.
pub type Cut = (Option<HashMap<usize, bool>>, i32);

/// What the original's loop over d goes over.
pub struct Folded {
    pil: PIL,
    c_exp: Expression,
    largest_d: usize,
}

impl Folded {
    /// The loop over d of the original, around its degree rule: the unchanged one, or the one that counts. Call
    /// it on a large stack.
    pub fn kept<E: Debug>(
        &mut self,
        rule: fn(&mut PIL, &Expression, usize) -> Result<Cut, E>,
    ) -> Option<Kept> {
        let mut kept: Option<Kept> = None;
        for d in 2..=self.largest_d {
            let (set, q) = rule(&mut self.pil, &self.c_exp, d).expect("it never fails");
            if let Some(set) = set {
                let candidate = Kept { set: ascending(&set), q: q as usize };
                let replaces = |kept: &Kept| kept.q == 0 || candidate.cost() < kept.cost();
                if kept.as_ref().map_or(true, replaces) {
                    kept = Some(candidate);
                }
            }
        }
        kept
    }
}

/// Asks the original. Call it on a large stack.
pub fn ask_search(search: &Search) -> Result<Found, Refused> {
    search.admitted()?;
    let counted = caught(|| counted_loop(search));
    let visits = visits::counted();
    match counted {
        Err(text) if text == visits::PASSED => Err(Refused::With(VISITS)),
        Err(text) if text.starts_with(NO_KIND) => {
            agree(whole(search), |end, _| end == &Err(text.clone()))?;
            Err(Refused::With(SEARCH_KIND))
        }
        Err(text) => Err(Refused::Not(format!("the original panics: {}", text))),
        Ok(None) => {
            // It goes on as if nothing had to be cut.
            agree(whole(search), |_, kept| *kept == Kept { set: Vec::new(), q: 0 })?;
            Err(Refused::With(NO_SET))
        }
        Ok(Some(kept)) => {
            agree(whole(search), |_, own| *own == kept)?;
            if kept.q == usize::MAX {
                agree(whole(search), |end, _| end == &Err(TOO_MANY_COLUMNS.to_string()))?;
                return Err(Refused::With(NO_QUOTIENT));
            }
            let Kept { set, q } = kept;
            Ok(Found { set, q, visits })
        }
    }
}

/// The visits that a search needs for its answer or refusal, where they are at most the limit.
pub fn visits_needed(search: &Search) -> Option<u64> {
    match search.admitted().map(|()| caught(|| counted_loop(search))) {
        Ok(Err(text)) if text == visits::PASSED => None,
        Ok(_) => Some(visits::counted()),
        Err(_) => Some(0),
    }
}

/// The loop around the degree rule that counts.
fn counted_loop(search: &Search) -> Option<Kept> {
    let mut folded = search.folded();
    visits::begin(search.limit);
    folded.kept(counted::calculate_im_pols)
}

fn ascending(set: &HashMap<usize, bool>) -> Vec<usize> {
    let mut numbers: Vec<usize> = set.keys().copied().collect();
    numbers.sort_unstable();
    numbers
}

/// How the original's own whole run ends, and what it kept.
fn whole(search: &Search) -> (Result<(), String>, Kept) {
    let (mut info, mut pil) = (StarkInfo::default(), search.pil());
    let (mut first, mut second) = (fresh_context(), fresh_context());
    let mut program = Program::default();
    let rows = search.rows();
    let end = caught(|| {
        info.generate_constraint_polynomial(&mut first, &mut second, &mut pil, &rows, &mut program)
    });
    let end = end.and_then(|done| done.map_err(|error| error.to_string()));
    (end, Kept { set: ascending(&info.im_exps), q: info.q_deg })
}

pub fn fresh_context() -> Context {
    Context { exp_id: 0, tmp_used: 0, code: Vec::new(), calculated: HashMap::new() }
}

/// The original's own run must be as the counted one says.
fn agree(
    (end, kept): (Result<(), String>, Kept),
    is_foreseen: impl FnOnce(&Result<(), String>, &Kept) -> bool,
) -> Result<(), Refused> {
    if is_foreseen(&end, &kept) {
        return Ok(());
    }
    Err(Refused::Not(format!("the original ended with {:?} and kept {:?}", end, kept)))
}

#[cfg(test)]
mod tests {
    use super::*;
    use judge::case::{add, cm, exp, leaf, mul, number, plain_pool, Tree};
    use judge::kinds::Kind;
    use judge::run::on_large_stack;

    fn search(trees: &[Tree], identities: &[u16], more_bits: u8) -> Search {
        let (pool, identities) = (plain_pool(trees), identities.to_vec());
        Search { pool, identities, n_bits: 3, n_bits_ext: 3 + more_bits, limit: u64::MAX }
    }

    fn ask(search: &Search) -> Result<Found, Refused> {
        on_large_stack(|| Ok(ask_search(search))).unwrap()
    }

    #[test]
    fn document_01s_examples_are_answered_as_it_says() {
        let trees = [mul(cm(0), cm(1)), mul(exp(0), cm(2))];
        let found = |visits| Ok(Found { set: vec![0], q: 1, visits });
        assert_eq!(ask(&search(&trees, &[1], 0)), found(10));
        let one_more = search(&trees, &[1], 1);
        assert_eq!(ask(&one_more), found(12));
        assert_eq!(ask(&Search { limit: 12, ..one_more.clone() }), found(12));
        assert_eq!(ask(&Search { limit: 11, ..one_more }), Err(Refused::With(VISITS)));
        assert_eq!(ask(&search(&[number(5)], &[0], 0)), Err(Refused::With(NO_QUOTIENT)));
        assert_eq!(ask(&search(&[cm(0)], &[0], 0)).unwrap().q, 0);
    }

    #[test]
    fn refusals_come_in_document_01s_order() {
        let trees = [add(leaf(Kind::Q, 0), cm(0))];
        let refused = |identities: &[u16], n_bits_ext, limit| {
            let search = Search { n_bits_ext, limit, ..search(&trees, identities, 0) };
            match ask(&search) {
                Err(Refused::With(number)) => number,
                other => panic!("{:?}", other),
            }
        };
        assert_eq!(refused(&[], 2, 0), NO_IDENTITY);
        assert_eq!(refused(&[0, 1], 2, 0), BITS);
        assert_eq!(refused(&[0, 1], 8, 0), BITS);
        assert_eq!(refused(&[0, 1], 3, 0), NOT_THERE);
        assert_eq!(refused(&[0], 3, 0), VISITS);
        // exp leaf, add, q.
        assert_eq!(refused(&[0], 3, 2), VISITS);
        assert_eq!(refused(&[0], 3, 3), SEARCH_KIND);
    }

    #[test]
    fn a_run_that_is_not_as_foreseen_is_no_answer() {
        let kept = Kept { set: Vec::new(), q: 0 };
        assert_eq!(agree((Ok(()), kept.clone()), |end, _| end.is_ok()), Ok(()));
        assert!(matches!(agree((Ok(()), kept), |end, _| end.is_err()), Err(Refused::Not(_))));
    }
}

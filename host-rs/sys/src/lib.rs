//! The exported functions of the static library, each declared once and made a function on slices; all that is
//! unsafe is here. What every byte means stands in `include/enonkasse.h`.
//!
//! Each answers 0, or the number of document 01's refusal, and then nothing lent has changed. None asks anything
//! of what is lent.

#![deny(missing_docs)]

mod constants;
#[macro_use]
mod exported;
pub mod records;

pub use constants::*;

// One more function of the library is one more line here, and its prototype in the header.
exported! {
    /// Makes a context fresh: no mark, no block, no temporary.
    fn enonkasse_fresh as fresh(context: &mut [u8]);

    /// Serves the requests among the frames, in their order; the last one asks for a result of this kind and id, or,
    /// where both are 0, for none.
    fn enonkasse_serve as serve(
        frames: &[u8], kind: u8, id: u16, context: &mut [u8], list: &mut [u8]
    );

    /// Builds the first, i and last lists of what was generated, and says how many steps each has.
    fn enonkasse_build as build(
        frames: &[u8], context: &mut [u8], list: &[u8],
        first: &mut [u8], i: &mut [u8], last: &mut [u8], sizes: &mut [usize; 3]
    );

    /// The whole run: serves the requests among the frames on a fresh context of its own and puts the first list at
    /// the front of `list`; says how many steps it has, and where the temporary counter stands.
    fn enonkasse_run as run(frames: &[u8], list: &mut [u8], totals: &mut [usize; 2]);

    /// Runs a list downwards modulo a number, and says the final value of every cell written.
    fn enonkasse_evaluate as evaluate(
        frames: &[u8], list: &[u8], modulus: u32, values: &[u64],
        out: &mut [u8], cells: &mut [usize; 1]
    );

    /// Puts the whole answer of a plan at the front of `out`, and says how many bytes it has.
    fn enonkasse_map as map(frames: &[u8], plan: &[u8], out: &mut [u8], size: &mut [usize; 1]);

    /// Fixes the references of a segment's lists for the domain 0, "n", or 1, "2ns"; the counter goes on.
    fn enonkasse_fix as fix(
        frames: &[u8], plan: &[u8], domain: u8, counter: &mut [usize; 1],
        first: &mut [u8], i: &mut [u8], last: &mut [u8]
    );

    /// Makes trees of the cm of a segment's lists, for the verifier's query code.
    fn enonkasse_query as query(
        frames: &[u8], plan: &[u8], first: &mut [u8], i: &mut [u8], last: &mut [u8]
    );

    /// Gives every reference of a segment's lists its dimension, the x kinds that of this pass.
    fn enonkasse_dimension as dimension(
        frames: &[u8], plan: &[u8], dim_x: u16, first: &mut [u8], i: &mut [u8], last: &mut [u8]
    );

    /// The same for a first list alone, where the x kinds have dimension 3.
    fn enonkasse_dimension_first as dimension_first(
        frames: &[u8], plan: &[u8], first: &mut [u8]
    );

    /// Searches for the columns that bring the degree of the identities down, in at most `limit` visits: the set, q
    /// and the visits.
    fn enonkasse_search as search(
        frames: &[u8], identities: &[u64], n_bits: u64, n_bits_ext: u64, limit: u64,
        chosen: &mut [u64; SET_WORDS], found: &mut [u64; 2]
    );

    /// Marks these expressions of a pool that has so many at both rows: they stand in columns, and no list makes
    /// them any more.
    fn enonkasse_mark as mark(
        members: &[u64], expressions: usize, context: &mut [u8], list: &[u8]
    );

    /// Puts the closing product, q0 = the last destination times Zi, at the end of the last block of a context of a
    /// pool that has so many expressions.
    fn enonkasse_close as close(expressions: usize, context: &mut [u8], list: &mut [u8]);

    /// Adds the constraint polynomial of the identities to a pool, with the columns that a search chose: puts the
    /// frames of the pool with it at the front of `out`, and says its numbers.
    fn enonkasse_constraint_pool as constraint_pool(
        frames: &[u8], identities: &[u64], chosen: &[u64; SET_WORDS], vc: u16,
        n_cm1: usize, n_cm2: usize, commitments: usize, quotients: usize,
        out: &mut [u8], numbers: &mut [usize; CONSTRAINT_NUMBERS]
    );

    /// All of `generate_constraint_polynomial` or nothing: searches, adds the constraint to the pool, makes step3 in the
    /// first context and step42ns in the second; says q and the visits, how many steps each of the six lists has,
    /// and how many bytes the frames of the pool with the constraint have.
    fn enonkasse_constraint as constraint(
        frames: &[u8], identities: &[u64], vc: u16, n_bits: u64, n_bits_ext: u64, limit: u64,
        n_cm1: usize, n_cm2: usize, commitments: usize,
        context: &mut [u8], list: &mut [u8], first: &mut [u8], i: &mut [u8], last: &mut [u8],
        context_2ns: &mut [u8], list_2ns: &mut [u8],
        first_2ns: &mut [u8], i_2ns: &mut [u8], last_2ns: &mut [u8],
        out: &mut [u8], chosen: &mut [u64; SET_WORDS], found: &mut [u64; 2],
        totals: &mut [usize; CONSTRAINT_TOTALS]
    );
}

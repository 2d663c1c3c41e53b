//! Bad input to the degree search, and its limits: each gets its number, and nothing lent has changed; and
//! the stored vectors.

use crate::record::{framed_hex, pool_frames, UNWRITTEN_WORD};
use crate::searched::say;
use asked::checks::answers_the_stored_vectors;
use asked::question::Question as _;
use enonkasse_sys::{self as library, SET_WORDS};
use judge::case::{add, cm, exp, mul, plain_pool, Tree};
use judge::pool::MAX_EXPRESSIONS;
use judge::refusals::{BITS, CHILD_COUNT, CYCLE, FULL, MALFORMED, NOT_THERE, NO_IDENTITY, VISITS};
use judge::run::on_large_stack;
use searches::question::{Answer, Given, Question};
use searches::search::Search;

/// Document 01's example: e0 = cm0·cm1, e1 = e0·cm2.
fn frames() -> Vec<u8> {
    pool_frames(&plain_pool(&[mul(cm(0), cm(1)), mul(exp(0), cm(2))]))
}

/// What is found, or the refusal's number, which leaves all as it was.
fn found(
    frames: &[u8],
    identities: &[u64],
    bits: [u64; 2],
    limit: u64,
) -> Result<([u64; SET_WORDS], [u64; 2]), u8> {
    let (mut chosen, mut found) = ([UNWRITTEN_WORD; SET_WORDS], [UNWRITTEN_WORD; 2]);
    let [n_bits, n_bits_ext] = bits;
    match library::search(frames, identities, n_bits, n_bits_ext, limit, &mut chosen, &mut found) {
        0 => Ok((chosen, found)),
        number => {
            assert_eq!((chosen, found), ([UNWRITTEN_WORD; SET_WORDS], [UNWRITTEN_WORD; 2]));
            Err(number)
        }
    }
}

fn refused(identities: &[u64], bits: [u64; 2], limit: u64) -> Option<u8> {
    found(&frames(), identities, bits, limit).err()
}

#[test]
fn document_01s_example_is_found() {
    // The first bit, and one member.
    let set = [1, 0, 0, 0, 0, 0, 0, 0, 1];
    assert_eq!(found(&frames(), &[1], [3, 3], 10), Ok((set, [1, 10])));
    assert_eq!(found(&frames(), &[1], [3, 4], 12), Ok((set, [1, 12])));
    assert_eq!(found(&frames(), &[1], [3, 4], u64::MAX), Ok((set, [1, 12])));
    for limit in 0..12 {
        assert_eq!(refused(&[1], [3, 4], limit), Some(VISITS));
    }
}

#[test]
fn no_identity_comes_before_bits() {
    assert_eq!(refused(&[], [3, 3], 10), Some(NO_IDENTITY));
    assert_eq!(refused(&[], [25, 0], 0), Some(NO_IDENTITY));
}

#[test]
fn bits_are_in_range() {
    let wide = 1 << 32;
    for (n_bits, n_bits_ext) in [
        (3, 2),
        (3, 8),
        (25, 25),
        (24, 29),
        (0, 5),
        (256, 256),
        (wide, wide),
        (wide + 3, 3),
        (3, wide + 3),
        (u64::MAX, 0),
        (u64::MAX, u64::MAX),
        (u64::MAX - 1, 2),
        (0, u64::MAX),
    ] {
        assert_eq!(refused(&[9], [n_bits, n_bits_ext], 0), Some(BITS), "{} {}", n_bits, n_bits_ext);
    }
    for bits in [[0, 0], [0, 4], [24, 24], [24, 28]] {
        assert_eq!(refused(&[1], bits, 1_000_000), None, "{:?}", bits);
    }
}

#[test]
fn identities_are_expressions() {
    for identity in [2, 511, 512, 1 << 16, 1 << 32, (1 << 32) + 1, 1 << 63, u64::MAX] {
        assert_eq!(refused(&[identity], [3, 3], 0), Some(NOT_THERE), "{}", identity);
        assert_eq!(refused(&[1, identity], [3, 3], 0), Some(NOT_THERE), "{}", identity);
    }
    assert_eq!(refused(&[1; 1000], [3, 3], 10), Some(VISITS));
}

#[test]
fn a_limit_of_0_is_passed_by_every_search() {
    for bits in [[3, 3], [3, 7]] {
        assert_eq!(refused(&[0], bits, 0), Some(VISITS));
    }
}

#[test]
fn a_pool_is_admitted_first() {
    let of = |frames: &[u8]| found(frames, &[], [99, 0], 0).err();
    let whole = frames();
    assert_eq!(of(&[]), Some(NO_IDENTITY));
    assert_eq!(of(&whole[..whole.len() - 1]), Some(MALFORMED));
    assert_eq!(of(&[0xff; 9]), Some(MALFORMED));
    assert_eq!(of(&[0; 9]), Some(MALFORMED));
    assert_eq!(of(&framed_hex(&["0107000000020000"])), Some(MALFORMED));
    assert_eq!(of(&framed_hex(&["010700000000"])), Some(CHILD_COUNT));
    assert_eq!(of(&framed_hex(&["0107000000010001"])), Some(NOT_THERE));
    assert_eq!(of(&framed_hex(&["02000000"])), Some(NOT_THERE));
    assert_eq!(of(&framed_hex(&["011200000000", "02000000"])), Some(CYCLE));
    assert_eq!(of(&framed_hex(&["011000000000"; 4096])), Some(NO_IDENTITY));
    assert_eq!(of(&framed_hex(&["011000000000"; 4097])), Some(FULL));
}

/// e511 is the sum of e0·cm, .., e510·cm, each a product: all of them are cut.
#[test]
fn a_set_has_up_to_511_members() {
    let last = MAX_EXPRESSIONS as u16 - 1;
    let mut trees: Vec<Tree> = (0..last).map(|_| mul(cm(0), cm(1))).collect();
    trees.push((1..last).fold(mul(exp(0), cm(2)), |sum, e| add(sum, mul(exp(e), cm(2)))));
    let (pool, identities) = (plain_pool(&trees), vec![last]);
    let search = Search { pool, identities, n_bits: 3, n_bits_ext: 3, limit: 1_000_000 };
    let question = Question::Search(search);
    let answer = on_large_stack(|| question.ask()).unwrap();
    match &answer {
        Answer::Given(Given::Found(found)) => assert_eq!(found.set.len(), usize::from(last)),
        other => panic!("{}", other),
    }
    assert_eq!(say(&question), Ok(Some(answer)));
}

#[test]
fn the_stored_vectors_are_answered() {
    let path = concat!(env!("CARGO_MANIFEST_DIR"), "/../../vectors/searches.txt");
    answers_the_stored_vectors(path, say);
}

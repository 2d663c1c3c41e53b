//! The degree search.

use crate::clock::timed;
use crate::inputs::pool_of;
use crate::measure::{Case, Pair};
use enonkasse_sys::{search, SET_WORDS};
use judge::case::{add, cm, exp, mul, Tree};
use original::starkinfo_cp_prover::calculate_im_pols;
use searches::search::Search;
use sessions::record::pool_frames;

/// A visit is to be so many times as fast.
const AIM: f64 = 10.0;

/// Bits, and bits more of the extended domain.
const BITS: u8 = 3;

/// Levels of a tower and bits more: 68 thousand to 6.7 million visits.
const SIZES: [(u16, u8); 4] = [(6, 4), (7, 3), (8, 3), (10, 2)];

/// e0 = cm·cm + cm, each next one a sum of products of those before it.
fn tower(levels: u16) -> Vec<Tree> {
    let tree = |e: u16| match e {
        0 => add(mul(cm(0), cm(1)), cm(2)),
        1 => mul(exp(0), mul(exp(0), cm(3))),
        _ => add(mul(exp(e - 1), exp(e - 2)), mul(exp(e - 2), cm(e))),
    };
    (0..levels).map(tree).collect()
}

fn of_tower(levels: u16, more_bits: u8) -> Search {
    let pool = pool_of(tower(levels));
    let (n_bits_ext, identities) = (BITS + more_bits, vec![levels - 1]);
    Search { pool, identities, n_bits: BITS, n_bits_ext, limit: u64::MAX }
}

struct Lent {
    frames: Vec<u8>,
    identities: Vec<u64>,
    bits: [u64; 2],
    set: [u64; SET_WORDS],
    found: [u64; 2],
}

impl Lent {
    fn new(asked: &Search) -> Lent {
        Lent {
            frames: pool_frames(&asked.pool),
            identities: asked.identities.iter().map(|&e| e.into()).collect(),
            bits: [asked.n_bits.into(), asked.n_bits_ext.into()],
            set: [0; SET_WORDS],
            found: [0; 2],
        }
    }

    fn search(&mut self) -> u8 {
        let Lent { frames, identities, bits, set, found } = self;
        search(frames, identities, bits[0], bits[1], u64::MAX, set, found)
    }
}

fn searched(levels: u16, more_bits: u8) -> Pair {
    let asked = of_tower(levels, more_bits);
    let mut lent = Lent::new(&asked);
    assert_eq!(lent.search(), 0);
    let (q, visits) = (lent.found[0], lent.found[1]);
    Pair {
        title: format!("search of {} visits", visits),
        port: Box::new(move || timed(|| lent.search())),
        original: Box::new(move || {
            let mut folded = asked.folded();
            timed(|| {
                let kept = folded.kept(calculate_im_pols).expect("a set");
                assert_eq!(kept.q as u64, q);
            })
        }),
        aim: Some(AIM),
        units: (visits, "visit"),
    }
}

pub fn cases() -> Vec<Case> {
    let case = |(levels, more_bits)| {
        Case::new(&format!("search-{}-{}", levels, more_bits), move || searched(levels, more_bits))
    };
    SIZES.map(case).into()
}

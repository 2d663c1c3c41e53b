//! Document 01's examples of sections, the edges of `map_section`, and the stored vectors.

use enonkasse::map::{Width, SECTIONS};
use enonkasse::sections::{map_section, PolType};
use enonkasse::Refusal;

const VECTORS: &str = include_str!("../../vectors/plans.txt");

const MAX_RECORDS: usize = 4096;
const EMPTY: Width = Width { n1: 0, n: 0, n3: 0 };

/// Records of one section with these dimensions, all at this position.
fn records(section: u16, dims: &[u16], section_pos: u16) -> Vec<PolType> {
    dims.iter().map(|&dim| PolType { section, dim, section_pos }).collect()
}

fn positions(records: &[PolType]) -> Vec<u16> {
    records.iter().map(|record| record.section_pos).collect()
}

/// A width in one section, none in the others.
fn only(section: u16, width: Width) -> [Width; SECTIONS] {
    let mut widths = [EMPTY; SECTIONS];
    widths[usize::from(section)] = width;
    widths
}

#[test]
fn the_documents_examples() {
    for section in 0..SECTIONS as u16 {
        let mut lent = records(section, &[3, 1, 2, 1], 9);
        let widths = map_section(&mut lent).unwrap();
        assert_eq!(positions(&lent), [4, 0, 2, 1]);
        assert_eq!(widths, only(section, Width { n1: 2, n: 7, n3: 1 }));
        let mut one = records(section, &[2], 9);
        assert_eq!(map_section(&mut one), Ok(only(section, Width { n1: 0, n: 2, n3: 0 })));
        assert_eq!(positions(&one), [0]);
    }
    assert_eq!(map_section(&mut []), Ok([EMPTY; SECTIONS]));
}

#[test]
fn sections_are_apart_and_nothing_but_positions_changes() {
    let mut lent = [records(0, &[1, 3], 5), records(10, &[3, 1], 6)].concat();
    lent.swap(1, 2);
    let before = lent.clone();
    let widths = map_section(&mut lent).unwrap();
    assert_eq!(positions(&lent), [0, 1, 1, 0]);
    assert_eq!(
        (widths[0], widths[10]),
        (Width { n1: 1, n: 4, n3: 1 }, Width { n1: 1, n: 4, n3: 1 })
    );
    for (after, before) in lent.iter().zip(before) {
        assert_eq!((after.section, after.dim), (before.section, before.dim));
    }
}

#[test]
fn a_record_of_another_dimension_keeps_its_position() {
    for dim in [0, 4, 5, u16::MAX] {
        let mut lent = records(3, &[1, dim, 3], 700);
        assert_eq!(map_section(&mut lent), Ok(only(3, Width { n1: 1, n: 4, n3: 1 })));
        assert_eq!(positions(&lent), [0, 700, 1], "{}", dim);
    }
}

fn refused(lent: &[PolType], refusal: Refusal) {
    let mut after = lent.to_vec();
    assert_eq!(map_section(&mut after), Err(refusal));
    assert!(after == lent, "refused, and the records have changed");
}

#[test]
fn an_unknown_section_is_malformed() {
    for section in [SECTIONS as u16, 12, 0x100, u16::MAX] {
        for place in 0..4 {
            let mut lent = records(1, &[1, 2, 3, 1], 8);
            lent[place].section = section;
            refused(&lent, Refusal::Malformed);
        }
    }
}

#[test]
fn the_first_record_past_the_limit_decides() {
    let mut lent = records(2, &[3; MAX_RECORDS], 8);
    let n = 3 * MAX_RECORDS as u16;
    assert_eq!(map_section(&mut lent), Ok(only(2, Width { n1: 0, n, n3: n / 3 })));
    assert_eq!(lent[MAX_RECORDS - 1].section_pos, n - 3);
    let over = records(2, &[3; MAX_RECORDS + 2], 8);
    refused(&over, Refusal::Full);
    for (place, refusal) in [
        (0, Refusal::Malformed),
        (MAX_RECORDS, Refusal::Malformed),
        (MAX_RECORDS + 1, Refusal::Full),
    ] {
        let mut over = over.clone();
        over[place].section = 11;
        refused(&over, refusal);
    }
}

fn numbers(line: &str, name: &str) -> Option<Vec<u16>> {
    let rest = line.strip_prefix(name)?.strip_prefix(' ')?;
    Some(rest.split(' ').filter(|&word| word != "-").map(|word| word.parse().unwrap()).collect())
}

/// The records that a vector lends, and the positions and widths that the original answered.
#[test]
fn the_stored_sections_are_answered() {
    let mut asked = 0;
    for text in VECTORS.split("\nvector ").skip(1) {
        let parts = text.split_once("\nask sections\n");
        let (question, answer) = match parts.and_then(|(_, rest)| rest.split_once("answers\n")) {
            Some(parts) => parts,
            None => continue,
        };
        let lent = question.lines().filter_map(|line| numbers(line, "record"));
        let mut lent: Vec<_> =
            lent.map(|n| PolType { section: n[0], dim: n[1], section_pos: n[2] }).collect();
        if lent.iter().any(|record| usize::from(record.section) >= SECTIONS) {
            refused(&lent, Refusal::Malformed);
            continue;
        }
        let widths = map_section(&mut lent).unwrap();
        let name = text.lines().next().unwrap_or_default();
        let expected = |name: &str| answer.lines().find_map(|line| numbers(line, name)).unwrap();
        assert_eq!(positions(&lent), expected("positions"), "{}", name);
        assert_eq!(widths.map(|width| width.n1)[..], expected("n1"), "{}", name);
        assert_eq!(widths.map(|width| width.n)[..], expected("n"), "{}", name);
        assert_eq!(widths.map(|width| width.n3)[..], expected("n3"), "{}", name);
        asked += 1;
    }
    assert!(asked >= 30, "{} vectors", asked);
}

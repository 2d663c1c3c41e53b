//! The evaluator on each side of each edge: its numbers, its values, and that a refusal changes nothing lent.

use crate::record::{framed_hex, UNWRITTEN};
use enonkasse_sys::{evaluate, CELL_SIZE, STEP_SIZE, VALUE_PARTS};
use judge::kinds::{Kind, Step};
use judge::refusals::{CHILD_COUNT, CYCLE, FULL, MALFORMED, NOT_THERE, NO_RULE};

const MODULUS: u32 = 65_537;

/// Cells that one list may write.
const CELL_LIMIT: u16 = 16384;

/// Number 7, number -3, and a neg over a cm leaf.
const POOL: [&str; 6] = [
    "011400000000000000000000000007",
    "011400000000010000000000000003",
    "011000000000",
    "0107000000010002",
    "02000000",
    "02000300",
];

#[derive(Clone, Copy)]
struct Reference {
    kind: u8,
    prime: u8,
    id: u16,
    extra: u16,
}

fn cell(kind: Kind, id: u16) -> Reference {
    Reference { kind: kind.byte(), prime: 0, id, extra: 0 }
}

fn primed(kind: Kind, id: u16) -> Reference {
    Reference { prime: 1, ..cell(kind, id) }
}

fn number(node: u16) -> Reference {
    Reference { extra: node, ..cell(Kind::NUMBER, 0) }
}

fn record(step: u8, count: u8, references: &[Reference]) -> Vec<u8> {
    let mut bytes = vec![step, count, 0xff, 0xff];
    for reference in references {
        bytes.extend([reference.kind, reference.prime]);
        bytes.extend(reference.id.to_be_bytes());
        bytes.extend([0; 6]);
        bytes.extend(reference.extra.to_be_bytes());
    }
    bytes.resize(STEP_SIZE, 0);
    bytes
}

/// A step with as many sources as it is given.
fn step(step: Step, references: &[Reference]) -> Vec<u8> {
    record(step.byte(), references.len() as u8 - 1, references)
}

fn copy(destination: Reference, source: Reference) -> Vec<u8> {
    step(Step::COPY, &[destination, source])
}

fn words(sections: [&[u64]; VALUE_PARTS]) -> Vec<u64> {
    let sizes = sections.iter().map(|section| section.len() as u64);
    sizes.chain(sections.into_iter().flatten().copied()).collect()
}

/// Two ids of cm, const and q, one of public, challenge and eval, and the x kinds.
fn given() -> Vec<u64> {
    words([
        &[10, 11, 12, 13],
        &[20, 21, 22, 23],
        &[30, 31, 32, 33],
        &[40],
        &[50],
        &[60],
        &[70, 71, 72],
    ])
}

/// A call of the evaluator.
#[derive(Clone)]
struct Call {
    frames: Vec<u8>,
    list: Vec<u8>,
    modulus: u32,
    values: Vec<u64>,
    room: usize,
}

impl Call {
    fn new(steps: &[Vec<u8>]) -> Call {
        let room = CELL_SIZE * steps.len();
        Call {
            frames: framed_hex(&POOL),
            list: steps.concat(),
            modulus: MODULUS,
            values: given(),
            room,
        }
    }

    /// The values of the cells in their order, or the refusal's number.
    fn answer(&self) -> Result<Vec<u64>, u8> {
        let mut out = vec![UNWRITTEN; self.room];
        let mut cells = [usize::MAX];
        let (frames, list, values) = (&self.frames, &self.list, &self.values);
        let number = evaluate(frames, list, self.modulus, values, &mut out, &mut cells);
        if number != 0 {
            let kept = out.iter().all(|&byte| byte == UNWRITTEN) && cells == [usize::MAX];
            assert!(kept, "a refusal with {} changed what was lent", number);
            return Err(number);
        }
        let value = |bytes: &[u8]| u64::from_be_bytes(bytes[4..].try_into().unwrap());
        Ok(out.chunks(CELL_SIZE).take(cells[0]).map(value).collect())
    }
}

fn answers(steps: &[Vec<u8>]) -> Result<Vec<u64>, u8> {
    Call::new(steps).answer()
}

const TMP: Kind = Kind::TMP;
const CM: Kind = Kind::CM;

#[test]
fn each_step_computes() {
    let (a, b, c) = (cell(CM, 0), cell(CM, 1), cell(Kind::CONST, 0));
    let tmp = cell(TMP, 0);
    assert_eq!(answers(&[step(Step::ADD, &[tmp, a, b])]), Ok(vec![22]));
    assert_eq!(answers(&[step(Step::SUB, &[tmp, a, b])]), Ok(vec![65_535]));
    assert_eq!(answers(&[step(Step::MUL, &[tmp, a, b])]), Ok(vec![120]));
    assert_eq!(answers(&[step(Step::MULADD, &[tmp, a, b, c])]), Ok(vec![140]));
    assert_eq!(answers(&[copy(tmp, a)]), Ok(vec![10]));
}

#[test]
fn each_kind_of_source_has_its_value() {
    let read = |source| answers(&[copy(cell(TMP, 0), source)]);
    for (source, value) in [
        (primed(CM, 1), 13),
        (primed(Kind::CONST, 0), 21),
        (cell(Kind::Q, 1), 32),
        (primed(Kind::PUBLIC, 0), 40),
        (cell(Kind::CHALLENGE, 0), 50),
        (cell(Kind::EVAL, 0), 60),
        (cell(Kind::X_DIV_X_SUB_XI, 9), 70),
        (cell(Kind::X_DIV_X_SUB_WXI, 0), 71),
        (primed(Kind::X, 0), 72),
        (number(0), 7),
        (number(1), 65_534),
        (number(2), 0),
        (number(3), 0),
        (number(4), 0),
        (number(u16::MAX), 0),
    ] {
        assert_eq!(read(source), Ok(vec![value]), "kind {:02x}", source.kind);
    }
    for kind in [Kind::EXP, TMP, Kind::F, Kind::TMP_EXP, Kind::ZI, Kind::TREE1, Kind::Z] {
        assert_eq!(read(cell(kind, 0)), Err(NO_RULE), "kind {:02x}", kind.byte());
    }
}

#[test]
fn what_is_written_last_is_read() {
    let (exp, cm) = (cell(Kind::EXP, 3), cell(CM, 0));
    let steps = [copy(exp, cm), copy(cm, number(0)), step(Step::ADD, &[exp, exp, cm])];
    assert_eq!(answers(&steps), Ok(vec![17, 7]));
    let other = primed(Kind::EXP, 3);
    assert_eq!(answers(&[copy(exp, cm), copy(cell(TMP, 0), other)]), Err(NO_RULE));
}

#[test]
fn a_temporary_is_its_number() {
    let steps = [copy(primed(TMP, 5), number(0)), copy(cell(Kind::F, 0), cell(TMP, 5))];
    assert_eq!(answers(&steps), Ok(vec![7, 7]));
    assert_eq!(answers(&[copy(cell(Kind::F, 0), cell(TMP, 5))]), Err(NO_RULE));
    assert_eq!(answers(&[copy(cell(TMP, 4), cell(TMP, 4))]), Err(NO_RULE));
}

#[test]
fn a_modulus_below_two_is_malformed() {
    let call = Call::new(&[copy(cell(TMP, 0), cell(CM, 0))]);
    for (modulus, answer) in
        [(0, Err(MALFORMED)), (1, Err(MALFORMED)), (2, Ok(vec![0])), (u32::MAX, Ok(vec![10]))]
    {
        assert_eq!(Call { modulus, ..call.clone() }.answer(), answer);
    }
}

#[test]
fn a_record_cut_short_is_malformed() {
    let mut call = Call::new(&[copy(cell(TMP, 0), cell(CM, 0)), copy(cell(TMP, 1), cell(CM, 0))]);
    assert_eq!(call.answer(), Ok(vec![10, 10]));
    call.list.pop();
    assert_eq!(call.answer(), Err(MALFORMED));
    call.list.truncate(STEP_SIZE + 1);
    assert_eq!(call.answer(), Err(MALFORMED));
    call.list.truncate(STEP_SIZE);
    assert_eq!(call.answer(), Ok(vec![10]));
    call.list.clear();
    assert_eq!(call.answer(), Ok(vec![]));
}

#[test]
fn four_sources_are_malformed() {
    let sources = [cell(TMP, 0), cell(CM, 0), cell(CM, 1), cell(CM, 1)];
    for (count, answer) in [(3, Ok(vec![132])), (4, Err(MALFORMED)), (255, Err(MALFORMED))] {
        assert_eq!(answers(&[record(Step::MULADD.byte(), count, &sources)]), answer);
    }
}

#[test]
fn an_unknown_kind_is_malformed() {
    for kind in 0..=u8::MAX {
        let known = matches!(kind, 0x10..=0x1a | 0x20..=0x28);
        let reference = Reference { kind, ..cell(CM, 0) };
        let source = answers(&[copy(cell(TMP, 0), reference)]);
        assert_eq!(source == Err(MALFORMED), !known, "source {:02x}", kind);
        let destination = answers(&[copy(reference, cell(CM, 0))]);
        let writable = matches!(kind, 0x10 | 0x12 | 0x13 | 0x20..=0x22);
        let expected = match (known, writable) {
            (false, _) => Err(MALFORMED),
            (true, false) => Err(NO_RULE),
            (true, true) => Ok(vec![10]),
        };
        assert_eq!(destination, expected, "destination {:02x}", kind);
        // A source that the record does not count is not looked at.
        let uncounted = record(Step::COPY.byte(), 1, &[cell(TMP, 0), cell(CM, 0), reference]);
        assert_eq!(answers(&[uncounted]), Ok(vec![10]));
        let ignored = record(Step::COPY.byte(), 2, &[cell(TMP, 0), cell(CM, 0), reference]);
        assert_eq!(answers(&[ignored]) == Err(MALFORMED), !known, "ignored {:02x}", kind);
    }
}

#[test]
fn a_prime_of_two_is_malformed() {
    let two = |reference| Reference { prime: 2, ..reference };
    for (destination, source) in
        [(two(cell(TMP, 0)), cell(CM, 0)), (cell(TMP, 0), two(cell(CM, 0)))]
    {
        assert_eq!(answers(&[copy(destination, source)]), Err(MALFORMED));
    }
    assert_eq!(answers(&[copy(primed(TMP, 0), primed(CM, 0))]), Ok(vec![11]));
}

#[test]
fn values_that_do_not_fill_their_sections_are_malformed() {
    let call = Call::new(&[copy(cell(TMP, 0), number(0))]);
    let with = |values: Vec<u64>| Call { values, ..call.clone() }.answer();
    assert_eq!(with(given()), Ok(vec![7]));
    assert_eq!(with(words([&[]; VALUE_PARTS])), Ok(vec![7]));
    for size in 0..VALUE_PARTS {
        assert_eq!(with(vec![0; size]), Err(MALFORMED), "a header of {} words", size);
    }
    for section in 0..VALUE_PARTS {
        for size in [given()[section] + 1, given()[section] - 1, u64::MAX] {
            let mut values = given();
            values[section] = size;
            assert_eq!(with(values), Err(MALFORMED), "section {} of {}", section, size);
        }
    }
    // Sizes whose sum wraps to what is there.
    let mut values = given();
    values[0] = u64::MAX;
    values[1] += given()[0] + 1;
    assert_eq!(with(values), Err(MALFORMED));
    assert_eq!(with([given(), vec![0]].concat()), Err(MALFORMED));
    assert_eq!(with(given()[..given().len() - 1].to_vec()), Err(MALFORMED));
}

#[test]
fn what_stands_past_its_section_is_not_given() {
    let odd: &[u64] = &[1, 2, 3];
    let values = words([odd, odd, odd, odd, odd, odd, &[1, 2]]);
    for (source, answer) in [
        (cell(CM, 1), Ok(vec![3])),
        (primed(CM, 1), Err(NO_RULE)),
        (cell(CM, 2), Err(NO_RULE)),
        (cell(Kind::CONST, 1), Ok(vec![3])),
        (primed(Kind::CONST, 1), Err(NO_RULE)),
        (cell(Kind::Q, 1), Ok(vec![3])),
        (primed(Kind::Q, 1), Err(NO_RULE)),
        (cell(Kind::PUBLIC, 2), Ok(vec![3])),
        (cell(Kind::PUBLIC, 3), Err(NO_RULE)),
        (cell(Kind::CHALLENGE, 2), Ok(vec![3])),
        (cell(Kind::CHALLENGE, 3), Err(NO_RULE)),
        (cell(Kind::EVAL, 2), Ok(vec![3])),
        (cell(Kind::EVAL, 3), Err(NO_RULE)),
        (cell(Kind::X_DIV_X_SUB_WXI, 0), Ok(vec![2])),
        (cell(Kind::X, 0), Err(NO_RULE)),
    ] {
        let call = Call { values: values.clone(), ..Call::new(&[copy(cell(TMP, 0), source)]) };
        assert_eq!(call.answer(), answer, "kind {:02x} id {}", source.kind, source.id);
    }
}

#[test]
fn an_unknown_step_or_too_few_sources_have_no_rule() {
    let references = [cell(TMP, 0), cell(CM, 0), cell(CM, 1), cell(CM, 1)];
    for byte in 0..=u8::MAX {
        let needed = match byte {
            0x01..=0x03 => Some(2),
            0x04 => Some(3),
            0x08 => Some(1),
            _ => None,
        };
        for count in 0..=3 {
            let fine = needed.map_or(false, |needed| needed <= count);
            let got = answers(&[record(byte, count, &references)]);
            assert_eq!(got.err(), Some(NO_RULE).filter(|_| !fine), "{:02x} of {}", byte, count);
        }
    }
}

#[test]
fn a_room_one_byte_short_is_full() {
    let steps = [copy(cell(TMP, 0), number(0)), copy(cell(TMP, 1), number(0))];
    for (room, answer) in
        [(2 * CELL_SIZE, Ok(vec![7, 7])), (2 * CELL_SIZE - 1, Err(FULL)), (0, Err(FULL))]
    {
        assert_eq!(Call { room, ..Call::new(&steps) }.answer(), answer);
    }
    let again = [copy(cell(TMP, 0), number(0)), copy(cell(TMP, 0), number(1))];
    assert_eq!(Call { room: CELL_SIZE, ..Call::new(&again) }.answer(), Ok(vec![65_534]));
}

#[test]
fn one_cell_past_the_limit_is_full() {
    let steps =
        |count: u16| (0..count).map(|id| copy(cell(TMP, id), number(0))).collect::<Vec<_>>();
    let all = answers(&steps(CELL_LIMIT));
    assert_eq!(all, Ok(vec![7; usize::from(CELL_LIMIT)]));
    let past = steps(CELL_LIMIT + 1);
    assert_eq!(answers(&past), Err(FULL));
    // 10 goes before 9.
    let refused = copy(cell(TMP, 0), cell(Kind::F, 0));
    assert_eq!(answers(&[&past[..], &[refused]].concat()), Err(NO_RULE));
    let read = copy(cell(Kind::F, 0), cell(TMP, CELL_LIMIT));
    assert_eq!(answers(&[&past[..], &[read]].concat()), Err(FULL));
}

#[test]
fn cells_of_one_id_are_apart() {
    let kinds = [CM, Kind::EXP, Kind::Q, Kind::F, Kind::TMP_EXP];
    let mut steps = Vec::new();
    for (at, &kind) in kinds.iter().enumerate() {
        for (prime, destination) in [cell(kind, 1), primed(kind, 1)].into_iter().enumerate() {
            steps.push(copy(destination, cell(Kind::CONST, 0)));
            steps.extend(
                (0..2 * at + prime)
                    .map(|_| step(Step::ADD, &[destination, destination, number(0)])),
            );
        }
    }
    let expected = (0..10).map(|k| 20 + 7 * k).collect();
    assert_eq!(answers(&steps), Ok(expected));
}

#[test]
fn refusals_come_in_their_order() {
    let leaf = "011000000000";
    let bad_list = vec![0; STEP_SIZE];
    let good = copy(cell(TMP, 0), number(0));
    let unruled = copy(cell(TMP, 0), cell(TMP, 1));
    for (label, lines, number) in [
        ("an unknown node kind", &["010f00000000"][..], MALFORMED),
        ("add with one child", &[leaf, "0101000000010000"][..], CHILD_COUNT),
        ("a child that is not earlier", &["0107000000010000"][..], NOT_THERE),
        ("a root that is not there", &[leaf, "02000100"][..], NOT_THERE),
        ("a leaf on itself", &["011200000000", "02000000"][..], CYCLE),
    ] {
        let frames = framed_hex(lines);
        let with = |list: &[u8]| {
            Call { frames: frames.clone(), list: list.to_vec(), ..Call::new(&[]) }.answer()
        };
        assert_eq!(with(&good), Err(number), "{}", label);
        assert_eq!(with(&unruled), Err(number), "{}", label);
        assert_eq!(with(&bad_list), Err(MALFORMED), "{}", label);
    }
    let nodes = vec![leaf; 4097];
    let limit = Call { frames: framed_hex(&nodes), ..Call::new(&[bad_list]) };
    assert_eq!(limit.answer(), Err(FULL));
    let unruled_in_no_room = Call { room: 0, ..Call::new(&[unruled]) };
    assert_eq!(unruled_in_no_room.answer(), Err(NO_RULE));
}

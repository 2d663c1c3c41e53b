//! Chosen runs of the program `steps`: each refusal on both sides of its edge, limits, and texts
//! that are no frames.
//!
//! Where the original has an answer it is asked. Elsewhere the number stands here, by hand, from
//! document 01's table.

use crate::case::Case;
use crate::kinds::Kind;
use crate::script::{Command, Script};
use crate::texts::Piece;

/// What a chosen run must print.
#[derive(Clone, Debug)]
pub enum Expected {
    /// What the original's answer looks like.
    Original,
    /// The same, written in short: it is compared with the original before it is stored.
    InShort(Vec<Piece>),
    /// A refusal that document 01 adds.
    Document(u8),
}

#[derive(Clone, Debug)]
pub struct Chosen {
    pub name: String,
    pub note: Option<String>,
    pub input: Vec<Piece>,
    pub expected: Expected,
}

impl Chosen {
    fn note(self, note: &str) -> Chosen {
        Chosen { note: Some(note.to_string()), ..self }
    }

    /// The case as a run, where it is one: requests without results, and a build at the end.
    pub fn of_case(case: &Case) -> Option<Chosen> {
        let commands = match case.question.commands.split_last() {
            Some((Command::Build, before)) => before,
            _ => &case.question.commands[..],
        };
        let is_plain =
            |command: &Command| matches!(command, Command::Request(r) if r.asked.is_none());
        if !commands.iter().all(is_plain) {
            return None;
        }
        let chosen = Chosen::of_script(&case.name, &case.question);
        Some(Chosen { note: case.note.clone(), ..chosen })
    }

    pub fn of_script(name: &str, script: &Script) -> Chosen {
        let input = script.frames().lines().map(line).collect();
        Chosen { name: name.to_string(), note: None, input, expected: Expected::Original }
    }
}

pub fn chosen() -> Vec<Chosen> {
    [
        accepted(),
        malformed_nodes(),
        malformed_literals(),
        malformed_others(),
        malformed_texts(),
        wrong_counts(),
        not_there(),
        requests_not_there(),
        cycles(),
        double_primes(),
        limits(),
        deep_trees(),
        deep_expressions(),
        orders(),
    ]
    .concat()
}

fn original(name: &str, input: &[Piece]) -> Chosen {
    let (name, note, input) = (name.to_string(), None, input.to_vec());
    Chosen { name, note, input, expected: Expected::Original }
}

fn in_short(name: &str, input: &[Piece], output: &[Piece]) -> Chosen {
    Chosen { expected: Expected::InShort(output.to_vec()), ..original(name, input) }
}

fn document(name: &str, number: u8, input: &[Piece]) -> Chosen {
    Chosen { expected: Expected::Document(number), ..original(name, input) }
}

// ---- frames, good or damaged

fn line(digits: &str) -> Piece {
    Piece::Line(digits.to_string())
}

fn each(from: u16, to: u16, template: &str) -> Piece {
    Piece::Each { from, to, template: template.to_string() }
}

fn text(bytes: impl AsRef<[u8]>) -> Piece {
    Piece::Text(bytes.as_ref().to_vec())
}

/// Nodes 0, 1, .. all of them cm0.
fn cms(count: u16) -> Piece {
    each(1, count, CM)
}

/// Expressions 0, 1, .. each with the node of its number as root.
fn roots(count: u16) -> Piece {
    each(0, count - 1, "02{}00")
}

const CM: &str = "011000000000";

/// A node's frame of any bytes; children that are not said count too.
struct Frame {
    kind: u8,
    next: u8,
    id: u16,
    children: Vec<u16>,
    literal: Option<(u8, u64)>,
}

impl Frame {
    fn of(kind: Kind, children: &[u16]) -> Frame {
        let literal = if kind.has_literal() { Some((0, 7)) } else { None };
        Frame { kind: kind.byte(), next: 0, id: 0, children: children.to_vec(), literal }
    }

    fn digits(&self) -> String {
        let mut digits = format!(
            "01{:02x}{:02x}{:04x}{:02x}",
            self.kind,
            self.next,
            self.id,
            self.children.len()
        );
        digits.extend(self.children.iter().map(|child| format!("{:04x}", child)));
        if let Some((sign, magnitude)) = self.literal {
            digits.push_str(&format!("{:02x}{:016x}", sign, magnitude));
        }
        digits
    }

    fn piece(&self) -> Piece {
        Piece::Line(self.digits())
    }
}

fn node(kind: Kind, children: &[u16]) -> Piece {
    Frame::of(kind, children).piece()
}

fn with_literal(kind: Kind, children: &[u16], sign: u8, magnitude: u64) -> Piece {
    Frame { literal: Some((sign, magnitude)), ..Frame::of(kind, children) }.piece()
}

fn leaf(kind: Kind, id: u16, next: u8) -> Piece {
    Frame { id, next, ..Frame::of(kind, &[]) }.piece()
}

fn cm() -> Piece {
    line(CM)
}

fn exp(id: u16) -> Piece {
    leaf(Kind::EXP, id, 0)
}

fn root(node: u16) -> Piece {
    root_with(node, 0)
}

fn root_with(node: u16, flags: u8) -> Piece {
    Piece::Line(format!("02{:04x}{:02x}", node, flags))
}

fn plain(expression: u16) -> Piece {
    request(expression, 0, 0)
}

fn primed(expression: u16) -> Piece {
    request(expression, 1, 0)
}

fn request(expression: u16, prime: u8, muladd: u8) -> Piece {
    Piece::Line(format!("03{:04x}{:02x}{:02x}", expression, prime, muladd))
}

fn first_children(kind: Kind) -> Vec<u16> {
    (0..kind.child_count() as u16).collect()
}

// ---- the runs

fn accepted() -> Vec<Chosen> {
    let mut runs = vec![
        original("empty", &[]),
        original("only-nodes", &[cm(), cm()]),
        original("no-request", &[cm(), root(0)]),
        original("dead-nodes", &[cm(), cm(), node(Kind::ADD, &[0, 1]), cm(), root(3), plain(0)]),
        original("asked-twice", &[cm(), root(0), plain(0), request(0, 0, 1), plain(0)]),
        original("plain-and-primed", &[cm(), root(0), primed(0), plain(0), primed(0)]),
        original("flags-7", &[cm(), root_with(0, 7), plain(0), primed(0)]),
    ];
    for kind in Kind::OPERATIONS {
        let children = first_children(kind);
        let frame = Frame::of(kind, &children);
        let pool = [cms(3), frame.piece(), root(3), plain(0), request(0, 1, 1)];
        runs.push(original(&format!("operation-{}", kind.word()), &pool));
        let pool = [cms(3), Frame { next: 1, ..frame }.piece(), root(3), plain(0), primed(0)];
        runs.push(
            original(&format!("operation-{}-next", kind.word()), &pool)
                .note("next on an operation means nothing"),
        );
    }
    for kind in Kind::LEAVES.into_iter().filter(|&kind| kind != Kind::EXP) {
        let id = if kind.has_id() { u16::MAX } else { 0 };
        let pool = [leaf(kind, id, 0), root(0), plain(0), primed(0)];
        runs.push(original(&format!("leaf-{}", kind.word().to_lowercase()), &pool));
    }
    runs
}

fn malformed_nodes() -> Vec<Chosen> {
    let of = |change: &dyn Fn(Frame) -> Frame| change(Frame::of(Kind::CM, &[])).piece();
    let mut runs = Vec::new();
    for kind in [0x00, 0x08, 0x0f, 0x1b, 0x20, 0x28, 0xff] {
        let frame = of(&|frame| Frame { kind, ..frame });
        runs.push(document(&format!("kind-{:02x}", kind), 1, &[frame]));
    }
    for kind in Kind::OPERATIONS.into_iter().chain(Kind::LEAVES).filter(|kind| !kind.has_id()) {
        let frame = Frame { id: 1, ..Frame::of(kind, &first_children(kind)) };
        let name = format!("id-of-{}", kind.word().to_lowercase());
        runs.push(document(&name, 1, &[cms(3), frame.piece()]));
    }
    let negs_next = Frame { next: 255, ..Frame::of(Kind::NEG, &[0]) }.piece();
    runs.extend([
        document("next-2", 1, &[of(&|frame| Frame { next: 2, ..frame })]),
        document("next-255-on-an-operation", 1, &[cm(), negs_next]),
        document("one-byte-short", 1, &[cm(), cm(), line("010100000002000000")]),
        document("one-byte-more", 1, &[cm(), cm(), line("0101000000020000000100")]),
        document("count-of-3-length-of-2", 1, &[cms(3), line("01010000000300000001")]),
        document("only-its-type", 1, &[line("01")]),
        document("type-00", 1, &[line("001000000000")]),
        document("type-04", 1, &[line("041000000000")]),
        document("leaf-with-a-literal", 1, &[line("011000000000000000000000000001")]),
        document("number-without-a-literal", 1, &[line("011400000000")]),
    ]);
    runs
}

fn malformed_literals() -> Vec<Chosen> {
    let number = |sign, magnitude| with_literal(Kind::NUMBER, &[], sign, magnitude);
    let asked = |piece| [piece, root(0), plain(0)];
    let mut runs = vec![
        original("number-plus-zero", &asked(number(0, 0))),
        document("number-minus-zero", 1, &asked(number(1, 0))),
        document("number-sign-2", 1, &asked(number(2, 7))),
        original("number-largest", &asked(number(0, u64::MAX))),
        original("number-least", &asked(number(1, u64::MAX))),
    ];
    for kind in [Kind::ADDC, Kind::MULC] {
        let name = |what: &str| format!("{}-{}", kind.word(), what);
        let asked =
            |sign, magnitude| [cm(), with_literal(kind, &[0], sign, magnitude), root(1), plain(0)];
        runs.extend([
            original(&name("plus-zero"), &asked(0, 0)),
            document(&name("minus-zero"), 1, &asked(1, 0)),
            document(&name("sign-2"), 1, &asked(2, 7)),
            original(&name("largest"), &asked(0, (1 << 63) - 1)),
            document(&name("too-large"), 1, &asked(0, 1 << 63)),
            original(&name("least"), &asked(1, 1 << 63)),
            document(&name("too-small"), 1, &asked(1, (1 << 63) + 1)),
        ]);
    }
    runs
}

fn malformed_others() -> Vec<Chosen> {
    let after = |piece| [cm(), root(0), piece];
    vec![
        document("flags-8", 1, &[cm(), root_with(0, 8)]),
        document("flags-255", 1, &[cm(), root_with(0, 255)]),
        document("expression-one-byte-short", 1, &[cm(), line("020000")]),
        document("expression-one-byte-more", 1, &[cm(), line("0200000000")]),
        document("prime-2", 1, &after(request(0, 2, 0))),
        document("muladd-2", 1, &after(request(0, 0, 2))),
        original("prime-1-muladd-1", &after(request(0, 1, 1))),
        document("request-one-byte-short", 1, &after(line("03000000"))),
        document("request-one-byte-more", 1, &after(line("030000000000"))),
        document("node-after-expression", 1, &[cm(), root(0), cm()]),
        document("node-after-request", 1, &[cm(), plain(0), cm()]),
        document("expression-after-request", 1, &[cm(), plain(0), root(0)]),
        document("expression-after-requests", 1, &[cm(), cm(), root(0), plain(0), root(1)]),
    ]
}

/// One frame that says something, and the ways to spell it otherwise.
fn malformed_texts() -> Vec<Chosen> {
    let leaf = "011000abcd00";
    let rest = [root(0), plain(0)];
    let first = |bytes: &[u8]| [&[text(bytes)], &rest[..]].concat();
    let longest = Frame::of(Kind::ADDC, &(0..255).collect::<Vec<u16>>()).digits();
    let longer = |digits: &str| [line(&format!("{}{}", longest, digits))];
    let mut runs = vec![
        original("letters", &first(format!("{}\n", leaf).as_bytes())),
        original("no-line-feed-at-the-end", &[line(leaf), root(0), text("0300000000")]),
        original("one-line-without-line-feed", &[text(leaf)]),
        document("upper-case", 1, &first(format!("{}\n", leaf.to_uppercase()).as_bytes())),
        document("one-upper-case-digit", 1, &first(b"011000abcD00\n")),
        document("odd", 1, &first(b"011000abcd000\n")),
        document("odd-at-the-end", 1, &[line(leaf), root(0), text("030000000")]),
        document("one-digit", 1, &[text("0")]),
        document("empty-line", 1, &[text("\n")]),
        document("empty-line-first", 1, &[text("\n"), line(leaf), root(0), plain(0)]),
        document("empty-line-between", 1, &[line(leaf), text("\n"), root(0), plain(0)]),
        document("empty-line-last", 1, &[line(leaf), root(0), plain(0), text("\n")]),
        document("carriage-return", 1, &first(format!("{}\r\n", leaf).as_bytes())),
        document("carriage-return-last", 1, &[line(leaf), root(0), text("0300000000\r\n")]),
        document("carriage-return-alone", 1, &first(format!("{}\r", leaf).as_bytes())),
        document("two-frames-in-a-line", 1, &first(format!("{}{}\n", leaf, leaf).as_bytes())),
        document("space-before", 1, &first(format!(" {}\n", leaf).as_bytes())),
        document("space-after", 1, &first(format!("{} \n", leaf).as_bytes())),
        document("two-spaces-after", 1, &first(format!("{}  \n", leaf).as_bytes())),
        document("digits-1050", 2, &longer("")).note("the longest frame; its child count is wrong"),
        document("digits-1050-no-line-feed", 2, &[text(&longest)]),
        document("digits-1050-all-children-there", 2, &[&[cms(255)], &longer("")[..]].concat()),
        document("digits-1051", 1, &longer("0")),
        document("digits-1052", 1, &longer("00")),
        document("digits-1052-and-more-frames", 1, &[&longer("00")[..], &[cm()]].concat()),
        document("digits-thousands", 1, &[text("01".repeat(5000))]),
    ];
    for byte in *b"/:`g@G\x00\x0b\x80\xff" {
        let bytes = [b"011000abc", &[byte][..], b"00\n"].concat();
        runs.push(document(&format!("byte-{:02x}", byte), 1, &first(&bytes)));
    }
    runs
}

fn wrong_counts() -> Vec<Chosen> {
    let mut runs = Vec::new();
    for kind in Kind::OPERATIONS.into_iter().chain(Kind::LEAVES) {
        let right = kind.child_count() as u16;
        for count in [right.wrapping_sub(1), right + 1] {
            if count == u16::MAX {
                continue;
            }
            let children: Vec<u16> = (0..count).collect();
            let name = format!("{}-with-{}", kind.word().to_lowercase(), count);
            runs.push(document(&name, 2, &[cms(4), node(kind, &children)]));
        }
    }
    let many: Vec<u16> = (0..255).collect();
    runs.extend([
        document("add-with-255", 2, &[cms(255), node(Kind::ADD, &many)]),
        document("wrong-count-in-a-dead-node", 2, &[cm(), node(Kind::NEG, &[]), root(0), plain(0)]),
        document("wrong-count-without-a-request", 2, &[node(Kind::NEG, &[])]),
    ]);
    runs
}

fn not_there() -> Vec<Chosen> {
    let neg = |child| node(Kind::NEG, &[child]);
    vec![
        document("child-is-itself", 3, &[neg(0)]),
        document("child-is-later", 3, &[neg(1), cm()]),
        document("child-is-no-node", 3, &[cm(), neg(9)]),
        original("child-is-the-one-before", &[cm(), neg(0), root(1), plain(0)]),
        document("second-child-is-itself", 3, &[cm(), node(Kind::ADD, &[0, 1])]),
        document("third-child-is-itself", 3, &[cm(), cm(), node(Kind::MULADD, &[0, 1, 2])]),
        document("child-4096", 3, &[cms(4095), neg(4096)]),
        document("child-65535", 3, &[cms(4095), neg(65535)]),
        original("child-4094", &[cms(4095), neg(4094), root(4095), plain(0)]),
        document("used-twice-by-one-node", 3, &[cm(), node(Kind::ADD, &[0, 0])]),
        document("used-twice-by-two-nodes", 3, &[cm(), neg(0), neg(0)]),
        document("used-twice-as-root", 3, &[cm(), root(0), root(0)]),
        document("used-as-child-and-root", 3, &[cm(), neg(0), root(0)]),
        document("used-by-a-dead-node-too", 3, &[cm(), neg(0), neg(0), root(1), plain(0)]),
        document("root-not-there", 3, &[cm(), root(1)]),
        document("root-without-nodes", 3, &[root(0)]),
        document("root-4096", 3, &[cms(4096), root(4096)]),
        original("root-4095", &[cms(4096), root(4095), plain(0)]),
        document("expression-not-there", 3, &[exp(1), root(0)]),
        original("expression-there", &[exp(1), cm(), root(0), root(1), plain(0)]),
        document("expression-not-there-in-a-dead-leaf", 3, &[exp(1), cm(), root(1), plain(0)]),
        document("expression-512", 3, &[cms(511), exp(512), roots(512)]),
        document("expression-65535", 3, &[exp(65535), root(0)]),
    ]
}

fn requests_not_there() -> Vec<Chosen> {
    let next = || [leaf(Kind::CM, 0, 1), root(0)];
    let then = |more: &[Piece]| [&next()[..], more].concat();
    vec![
        original("request-without-expressions", &[plain(0)]),
        original("request-not-there", &[cm(), root(0), plain(1)]),
        original("request-65535", &[cm(), root(0), plain(0), request(65535, 1, 1)]),
        original("request-512", &[cms(512), roots(512), plain(511), plain(512)]),
        original("request-511", &[cms(512), roots(512), plain(511)]),
        original("request-not-there-first", &then(&[plain(1), primed(0)]))
            .note("each request at its turn: 3, and the double prime is not met"),
        original("request-not-there-second", &then(&[primed(0), plain(1)]))
            .note("the double prime is met first"),
    ]
}

fn cycles() -> Vec<Chosen> {
    let neg = |child| node(Kind::NEG, &[child]);
    let mut runs = vec![
        document("cycle-of-one", 4, &[exp(0), root(0)]),
        document("cycle-of-one-next", 4, &[leaf(Kind::EXP, 0, 1), root(0)]),
        document("cycle-of-one-not-asked", 4, &[exp(0), cm(), root(0), root(1), plain(1)]),
        original("cycle-in-a-dead-leaf", &[exp(0), cm(), root(1), plain(0)])
            .note("an expression that no node of it reads"),
        document("cycle-of-two", 4, &[exp(1), exp(0), root(0), root(1), plain(0)]),
        original("no-cycle-of-two", &[exp(1), cm(), root(0), root(1), plain(0)]),
        document(
            "cycle-under-operations",
            4,
            &[cm(), exp(1), node(Kind::MUL, &[0, 1]), exp(0), neg(3), root(2), root(4)],
        ),
        document("cycle-behind-a-tail", 4, &[exp(1), exp(2), exp(1), root(0), root(1), root(2)]),
        original(
            "no-cycle-two-ways-to-one",
            &[
                cm(),
                exp(0),
                exp(0),
                exp(1),
                exp(2),
                node(Kind::ADD, &[3, 4]),
                root(0),
                root(1),
                root(2),
                root(5),
                plain(3),
            ],
        ),
        document("cycle-of-all", 4, &[each(1, 511, "011200{}00"), exp(0), roots(512)]),
        in_short(
            "chain-of-all",
            &[cm(), each(0, 510, "011200{}00"), roots(512), plain(511)],
            &[line("08120000000110000000"), each(1, 511, "0812{}000112{-1}00"), line("fe0000")],
        ),
        original("q-leads-nowhere", &[leaf(Kind::Q, 0, 0), root(0), plain(0), primed(0)]),
    ];
    for place in 0..3 {
        let leaves = [0, 1, 2].map(|at| if at == place { exp(0) } else { cm() });
        let pool = [&leaves[..], &[node(Kind::MULADD, &[0, 1, 2]), root(3)]].concat();
        runs.push(document(&format!("cycle-through-child-{}", place), 4, &pool));
    }
    runs
}

fn double_primes() -> Vec<Chosen> {
    let mut runs = Vec::new();
    for kind in Kind::LEAVES.into_iter().filter(|&kind| kind != Kind::EXP) {
        let pool = |requests: &[Piece]| [&[leaf(kind, 0, 1), root(0)], requests].concat();
        let name = |how: &str| format!("next-{}-{}", kind.word().to_lowercase(), how);
        runs.push(original(&name("plain"), &pool(&[plain(0)])));
        runs.push(original(&name("primed"), &pool(&[primed(0)])));
    }
    let exp_next = || leaf(Kind::EXP, 0, 1);
    let below = |first: Piece| [first, exp_next(), root(0), root(1)];
    let cm_next = || leaf(Kind::CM, 0, 1);
    let asked = |pool: &[Piece], requests: &[Piece]| [pool, requests].concat();
    let fusible =
        [cm(), cm(), node(Kind::MUL, &[0, 1]), cm_next(), node(Kind::ADD, &[2, 3]), root(4)];
    runs.extend([
        original("next-exp-plain", &asked(&below(cm()), &[plain(1)])),
        original("next-exp-primed", &asked(&below(cm()), &[primed(1)])),
        original("next-exp-of-next-cm", &asked(&below(cm_next()), &[plain(1)]))
            .note("a plain request: the exp leaf asks for its expression primed"),
        original("next-exp-of-next-cm-not-asked", &asked(&below(cm_next()), &[plain(0)])),
        original("next-fused", &asked(&fusible, &[request(0, 0, 1)])),
        original("next-fused-primed", &asked(&fusible, &[request(0, 1, 1)])),
        original("next-primed-after-plain", &asked(&fusible, &[plain(0), primed(0)]))
            .note("a refusal prints nothing of what came before"),
        original("next-in-a-dead-node", &[cm_next(), cm(), root(1), primed(0)]),
    ]);
    runs
}

const REQUEST: &str = "0300000000";

fn limits() -> Vec<Chosen> {
    let copies = each(0, 511, "0812{}000110000000");
    let primed_copies = each(0, 511, "0812{}010110000001");
    let zero = line("fe0000");
    vec![
        original("nodes-4096", &[cms(4096)]),
        document("nodes-4097", 9, &[cms(4097)]),
        in_short(
            "expressions-512",
            &[cms(512), roots(512), each(0, 511, "03{}0000")],
            &[copies.clone(), zero.clone()],
        ),
        document("expressions-513", 9, &[cms(513), roots(513)]),
        original("requests-1024", &[cm(), root(0), each(1, 1024, REQUEST)]),
        document("requests-1025", 9, &[cm(), root(0), each(1, 1025, REQUEST)]),
        in_short(
            "all-limits-full",
            &[cms(4096), roots(512), each(0, 511, "03{}0000"), each(0, 511, "03{}0101")],
            &[copies, primed_copies, zero],
        ),
        document("nodes-4097-malformed", 1, &[cms(4096), leaf(Kind::CM, 0, 2)])
            .note("past a limit and malformed: 1"),
        document("nodes-4097-then-malformed", 9, &[cms(4097), leaf(Kind::CM, 0, 2)]),
        document("nodes-4097-then-no-frame", 9, &[cms(4097), text("x")]),
        document("nodes-4097-out-of-order", 1, &[cms(4096), plain(0), cm()]),
        document("nodes-4096-then-malformed", 1, &[cms(4096), root_with(0, 8)]),
        document("expressions-513-malformed", 1, &[cms(513), roots(512), root_with(512, 8)]),
        document("expressions-513-out-of-order", 1, &[cms(513), roots(512), plain(0), root(512)]),
        document("requests-1025-malformed", 1, &[each(1, 1024, REQUEST), request(0, 2, 0)]),
        document("requests-1025-no-frame", 1, &[each(1, 1024, REQUEST), text("x\n")]),
        document("requests-1025-then-no-frame", 9, &[each(1, 1025, REQUEST), text("x\n")]),
        document("malformed-then-1025-requests", 1, &[line("ff"), each(1, 1025, REQUEST)]),
        document("requests-1025-and-no-expression", 9, &[each(1, 1025, REQUEST)]),
    ]
}

/// The reference of the literal 0, from which neg subtracts.
const ZERO: &str = "14000000000000000000000000";

/// A tree as deep as a pool can be: 4,095 times neg, above a leaf.
fn deep_trees() -> Vec<Chosen> {
    let asked = |requests: &[Piece]| {
        [&[cm(), each(0, 4094, "010700000001{}"), line("020fff00")], requests].concat()
    };
    let block = |prime: &str, first: u16| {
        let leaf = format!("0220{:04x}0002{}100000{}", first, ZERO, prime);
        let middle = format!("0220{{+{}}}0002{}20{{+{}}}00", first + 1, ZERO, first);
        let root = format!("02120000{}02{}20{:04x}00", prime, ZERO, first + 4093);
        [line(&leaf), each(0, 4092, &middle), line(&root)]
    };
    let once = |prime| [&block(prime, 0)[..], &[line("fe0ffe")]].concat();
    let twice = [&block("00", 0)[..], &block("01", 4094), &[line("fe1ffc")]].concat();
    vec![
        in_short("neg-4095", &asked(&[plain(0)]), &once("00")),
        in_short("neg-4095-primed", &asked(&[primed(0)]), &once("01")),
        in_short("neg-4095-fused", &asked(&[request(0, 0, 1)]), &once("00")),
        in_short("neg-4095-plain-and-primed", &asked(&[plain(0), primed(0)]), &twice)
            .note("8,190 steps, the most that there can be"),
        document("neg-4096", 9, &[cm(), each(0, 4095, "010700000001{}"), root(4096), plain(0)]),
    ]
}

/// As many levels of expressions as there can be: each is neg of the one before.
fn deep_expressions() -> Vec<Chosen> {
    let pool = [
        cm(),
        each(0, 510, "011200{}00"),
        each(0, 511, "010700000001{}"),
        each(512, 1023, "02{}00"),
    ];
    let asked = |requests: &[Piece]| [&pool[..], requests].concat();
    let blocks = |prime: &str| {
        let first = format!("02120000{}02{}100000{}", prime, ZERO, prime);
        let others = format!("0212{{}}{}02{}12{{-1}}{}", prime, ZERO, prime);
        [line(&first), each(1, 511, &others)]
    };
    let once = [&blocks("00")[..], &[line("fe0000")]].concat();
    let twice = [&blocks("01")[..], &blocks("00"), &[line("fe0000")]].concat();
    vec![
        in_short("expressions-512-deep", &asked(&[plain(511)]), &once),
        in_short("expressions-512-deep-both", &asked(&[primed(511), plain(511)]), &twice),
    ]
}

/// Which of two refusals is given.
fn orders() -> Vec<Chosen> {
    let childless = || node(Kind::NEG, &[]);
    let late = || node(Kind::NEG, &[9]);
    let primes = || [leaf(Kind::CM, 0, 1), root(0), primed(0)];
    let before = |piece: Piece| [&[piece], &primes()[..]].concat();
    vec![
        document("1-after-2", 1, &[childless(), request(0, 2, 0)]),
        document("1-after-3", 1, &[late(), request(0, 2, 0)]),
        document("1-after-4", 1, &[exp(0), root(0), request(0, 2, 0)]),
        document("1-after-5", 1, &[&primes()[..], &[request(0, 0, 2)]].concat()),
        document("9-after-2", 9, &[childless(), each(1, 1025, REQUEST)]),
        document("9-after-4", 9, &[exp(0), root(0), each(1, 1025, REQUEST)]),
        document("2-after-3", 2, &[late(), childless()]),
        document("2-after-4", 2, &[exp(0), childless(), root(0)]),
        document("2-and-5", 2, &before(node(Kind::ADD, &[]))),
        document("3-after-4", 3, &[exp(0), cm(), root(0), root(9)]),
        document("3-and-5", 3, &before(late())),
        document("4-and-a-request-not-there", 4, &[exp(0), root(0), plain(9)]),
        document("4-and-5", 4, &[leaf(Kind::CM, 0, 1), exp(1), root(0), root(1), primed(0)]),
    ]
}

#!/usr/bin/env python3
"""Write crates/replay_pool/stdin and stdout: pools, good and damaged, and the number that each must get.

usage: tools/make_pools.py [--check]      (from the repository's top folder)

--check writes nothing and fails where a file is not what it would be. The numbers are document 01's, said here case by case
and not computed. An entry of stdin is its form (1 byte), the length of its name (1), that of the pool (2), the name, and the pool:
of form 0 frames, each behind its length (2), of form 1 a text, a frame a line. stdout has a line for each: the name and the number.
"""
import os
import sys

TARGET = "crates/replay_pool"
ADD, SUB, MUL, MULADD, ADDC, MULC, NEG = 1, 2, 3, 4, 5, 6, 7
CM, CONST, EXP, Q, NUMBER, PUBLIC, CHALLENGE, EVAL, XI, WXI, X = range(0x10, 0x1B)
NODES, EXPRESSIONS, REQUESTS = 4096, 512, 1024
FRAMES, TEXT = 0, 1
cases = []


def two(n):
    return n.to_bytes(2, "big")


def literal(sign, magnitude):
    return bytes([sign]) + magnitude.to_bytes(8, "big")


def node(kind, *children, id=0, next=0, tail=b"", count=None):
    given = len(children) if count is None else count
    return bytes([1, kind, next]) + two(id) + bytes([given]) + b"".join(map(two, children)) + tail


def cm(id=0, next=0):
    return node(CM, id=id, next=next)


def exp(id, next=0):
    return node(EXP, id=id, next=next)


def number(sign=0, magnitude=5):
    return node(NUMBER, tail=literal(sign, magnitude))


def root(n, flags=0):
    return bytes([2]) + two(n) + bytes([flags])


def request(e, prime=0, muladd=0):
    return bytes([3]) + two(e) + bytes([prime, muladd])


def raw(name, expected, data, form=FRAMES):
    cases.append((form, name, expected, data))


def case(name, expected, *frames):
    raw(name, expected, b"".join(two(len(f)) + f for f in frames))


def lines(*frames):
    return b"".join(f.hex().encode() + b"\n" for f in frames)


def text(name, expected, data):
    raw("text-" + name, expected, data, TEXT)


def good():
    case("nothing", 0)
    case("one-leaf", 0, cm())
    case("whole-run", 0, cm(0), cm(1), node(MUL, 0, 1), node(CONST, id=0, next=1), node(ADD, 2, 3), root(4), request(0, 0, 1))
    case("every-leaf-kind", 0, *[node(k, tail=literal(0, 1) if k == NUMBER else b"") for k in range(CM, X + 1) if k != EXP])
    case("every-operation", 0, *[cm()] * 6, node(ADD, 0, 1), node(SUB, 2, 3), node(MUL, 6, 7), node(MULADD, 4, 5, 8),
         node(ADDC, 9, tail=literal(1, 7)), node(MULC, 10, tail=literal(0, 7)), node(NEG, 11), root(12))
    case("next-on-an-operation", 0, cm(), node(NEG, 0, next=1), root(1))
    case("dead-nodes", 0, cm(), cm(), node(ADD, 0, 1), cm(), root(3))
    case("dead-exp-leaf-of-its-own", 0, exp(0), cm(), root(1))
    case("largest-id", 0, cm(65535), root(0))
    case("all-flags", 0, cm(), root(0, 7))
    case("q-leaves-lead-nowhere", 0, node(Q, id=9), root(0))
    case("chain-of-expressions", 0, cm(), exp(0), exp(1), exp(2), root(0), root(1), root(2), root(3))
    case("expressions-backwards", 0, exp(1), exp(2), cm(), root(0), root(1), root(2))
    case("one-expression-asked-twice", 0, cm(), exp(0), exp(0), node(MUL, 1, 2), root(0), root(3))
    case("request-of-an-expression-not-there", 0, cm(), root(0), request(9))
    for kind in (PUBLIC, CHALLENGE, EVAL, XI, WXI, X):
        case(f"next-on-kind-{kind:02x}", 0, node(kind, next=1), root(0))
    case("next-on-a-number", 0, node(NUMBER, next=1, tail=literal(0, 3)), root(0))


def malformed():
    raw("cut-in-a-length", 1, b"\x00")
    raw("cut-in-a-frame", 1, two(6) + cm()[:5])
    raw("length-one-too-long", 1, two(7) + cm())
    case("empty-frame", 1, b"")
    case("node-of-1-byte", 1, cm()[:1])
    case("node-of-5-bytes", 1, cm()[:5])
    case("expression-of-1-byte", 1, cm(), root(0)[:1])
    case("request-of-1-byte", 1, request(0)[:1])
    for kind in (0x00, 0x08, 0x0F, 0x1B, 0x20, 0x28, 0xFF):
        case(f"kind-{kind:02x}", 1, node(kind))
    for kind in (0x00, 0x04, 0x05, 0xFF):
        case(f"type-{kind:02x}", 1, bytes([kind]) + cm()[1:])
    case("next-2", 1, cm(next=2))
    case("next-ff-on-an-operation", 1, cm(), node(NEG, 0, next=255))
    for kind, count in ((ADD, 2), (SUB, 2), (MUL, 2), (MULADD, 3), (ADDC, 1), (MULC, 1), (NEG, 1), (NUMBER, 0), (XI, 0), (WXI, 0), (X, 0)):
        tail = literal(0, 0) if kind in (ADDC, MULC, NUMBER) else b""
        case(f"id-of-kind-{kind:02x}", 1, *[cm()] * count, node(kind, *range(count), id=1, tail=tail))
    case("minus-zero", 1, number(1, 0))
    case("plus-zero", 0, number(0, 0))
    case("sign-2", 1, number(2, 5))
    case("number-without-literal", 1, node(NUMBER))
    case("leaf-with-literal", 1, node(CM, tail=literal(0, 1)))
    case("one-byte-short", 1, node(ADD, 0, 1)[:-1])
    case("one-byte-more", 1, node(ADD, 0, 1) + b"\x00")
    case("child-count-and-length-disagree", 1, cm(), cm(), node(ADD, 0, 1, count=3))
    for kind, name in ((ADDC, "addc"), (MULC, "mulc")):
        case(f"{name}-largest", 0, cm(), node(kind, 0, tail=literal(0, 2**63 - 1)))
        case(f"{name}-too-large", 1, cm(), node(kind, 0, tail=literal(0, 2**63)))
        case(f"{name}-least", 0, cm(), node(kind, 0, tail=literal(1, 2**63)))
        case(f"{name}-too-small", 1, cm(), node(kind, 0, tail=literal(1, 2**63 + 1)))
        case(f"{name}-minus-zero", 1, cm(), node(kind, 0, tail=literal(1, 0)))
        case(f"{name}-sign-2", 1, cm(), node(kind, 0, tail=literal(2, 7)))
    case("number-largest", 0, number(0, 2**64 - 1))
    case("number-least", 0, number(1, 2**64 - 1))
    case("flags-8", 1, cm(), root(0, 8))
    case("expression-one-byte-short", 1, cm(), root(0)[:-1])
    case("expression-one-byte-more", 1, cm(), root(0) + b"\x00")
    case("prime-2", 1, cm(), root(0), request(0, 2))
    case("muladd-2", 1, cm(), root(0), request(0, 0, 2))
    case("request-one-byte-short", 1, cm(), root(0), request(0)[:-1])
    case("request-one-byte-more", 1, cm(), root(0), request(0) + b"\x00")
    case("node-after-expression", 1, cm(), root(0), cm())
    case("node-after-request", 1, request(0), cm())
    case("expression-after-request", 1, cm(), request(0), root(0))
    case("malformed-after-a-wrong-count", 1, node(NEG), request(0, 2))
    case("malformed-after-a-late-child", 1, node(NEG, 0), request(0, 2))
    case("malformed-after-a-cycle", 1, exp(0), root(0), request(0, 2))


def wrong_counts():
    for kind, right in ((ADD, 2), (SUB, 2), (MUL, 2), (MULADD, 3), (ADDC, 1), (MULC, 1), (NEG, 1), (CM, 0), (EXP, 0), (Q, 0),
                        (NUMBER, 0), (X, 0)):
        tail = literal(0, 1) if kind in (ADDC, MULC, NUMBER) else b""
        for count in {right - 1, right + 1} - {-1}:
            case(f"kind-{kind:02x}-with-{count}", 2, *[cm()] * count, node(kind, *range(count), tail=tail))
    case("255-children", 2, *[cm()] * 255, node(ADD, *range(255)))
    case("wrong-count-before-late-child", 2, cm(), node(ADD, 9, 9), node(NEG))
    case("wrong-count-in-a-dead-node", 2, cm(), node(NEG), root(0))
    case("wrong-count-beside-a-cycle", 2, exp(0), node(NEG), root(0))


def not_there():
    case("child-is-itself", 3, node(NEG, 0))
    case("child-is-later", 3, node(NEG, 1), cm())
    case("child-is-no-node", 3, node(NEG, 9))
    case("second-child-late", 3, cm(), node(ADD, 0, 1))
    case("third-child-late", 3, cm(), cm(), node(MULADD, 0, 1, 2))
    case("used-twice-by-one-node", 3, cm(), node(ADD, 0, 0))
    case("used-twice-by-two-nodes", 3, cm(), node(NEG, 0), node(NEG, 0))
    case("used-twice-as-roots", 3, cm(), root(0), root(0))
    case("used-as-child-and-root", 3, cm(), node(NEG, 0), root(0))
    case("used-three-times", 3, cm(), node(ADD, 0, 0), root(0))
    case("root-not-there", 3, cm(), root(1))
    case("root-without-nodes", 3, root(0))
    for beyond in (NODES, 65535):
        case(f"child-{beyond}-in-a-full-pool", 3, *[cm()] * (NODES - 1), node(NEG, beyond))
        case(f"root-{beyond}-in-a-full-pool", 3, *[cm()] * NODES, root(beyond))
    case("expression-not-there", 3, exp(1), root(0))
    case("expression-not-there-in-a-dead-leaf", 3, exp(1), cm(), root(1))
    case("not-there-before-a-cycle", 3, exp(0), cm(), root(0), root(9))


def cycles():
    case("cycle-of-one", 4, exp(0), root(0))
    case("cycle-of-one-primed", 4, exp(0, 1), root(0))
    case("cycle-of-two", 4, exp(1), exp(0), root(0), root(1))
    case("cycle-under-operations", 4, cm(), exp(1), node(MUL, 0, 1), node(NEG, 2), exp(0), node(NEG, 4), root(3), root(5))
    for place in range(3):
        leaves = [exp(0) if n == place else cm() for n in range(3)]
        case(f"cycle-through-child-{place}-of-muladd", 4, *leaves, node(MULADD, 0, 1, 2), root(3))
    case("cycle-behind-a-tail", 4, exp(1), exp(2), exp(1), root(0), root(1), root(2))
    case("no-cycle-two-ways-to-one", 0, cm(), exp(0), exp(0), exp(1), exp(2), node(ADD, 3, 4), root(0), root(1), root(2), root(5))
    count = EXPRESSIONS
    case("cycle-of-all", 4, *[exp((e + 1) % count) for e in range(count)], *[root(e) for e in range(count)])
    case("chain-of-all", 0, *[exp(e + 1) for e in range(count - 1)], cm(), *[root(e) for e in range(count)])


def limits():
    case("nodes-full", 0, *[cm()] * NODES)
    case("nodes-one-too-many", 9, *[cm()] * (NODES + 1))
    case("nodes-one-too-many-malformed", 1, *[cm()] * NODES, node(CM, next=2))
    case("nodes-full-then-malformed-expression", 1, *[cm()] * NODES, root(0, 8))
    case("chain-of-neg", 0, cm(), *[node(NEG, n) for n in range(NODES - 1)], root(NODES - 1))
    case("expressions-full", 0, *[cm()] * EXPRESSIONS, *[root(e) for e in range(EXPRESSIONS)])
    case("expressions-one-too-many", 9, *[cm()] * (EXPRESSIONS + 1), *[root(e) for e in range(EXPRESSIONS + 1)])
    case("requests-full", 0, *[request(0)] * REQUESTS)
    case("requests-one-too-many", 9, *[request(0)] * (REQUESTS + 1))
    case("past-a-limit-before-a-wrong-count", 9, node(NEG), *[request(0)] * (REQUESTS + 1))
    case("past-a-limit-and-out-of-order", 1, *[cm()] * NODES, request(0), cm())
    case("past-a-limit-then-malformed", 9, *[cm()] * (NODES + 1), node(CM, next=2))
    case("expressions-one-too-many-malformed", 1, *[cm()] * EXPRESSIONS, *[root(e) for e in range(EXPRESSIONS)], root(0, 8))
    case("expressions-one-too-many-out-of-order", 1, *[cm()] * EXPRESSIONS, *[root(e) for e in range(EXPRESSIONS)], request(0), root(0))
    case("requests-one-too-many-malformed", 1, *[request(0)] * REQUESTS, request(0, 2))
    case("all-limits-full", 0, *[cm()] * NODES, *[root(e) for e in range(EXPRESSIONS)], *[request(0)] * REQUESTS)
    case("first-fault-decides", 1, node(CM, next=2), *[request(0)] * (REQUESTS + 1))


def texts():
    pool = [cm(0), cm(1), node(MUL, 0, 1), node(CONST, id=0, next=1), node(ADD, 2, 3), root(4)]
    run = b"011000000000\n011000000100\n01030000000200000001\n011101000000\n01010000000200020003\n02000400\n0300000001\n"
    assert run == lines(*pool, request(0, 0, 1))
    text("whole-run", 0, run)
    text("whole-run-not-fused", 0, lines(*pool, request(0)))
    text("no-line-feed-at-the-end", 0, run[:-1])
    text("empty", 0, b"")
    text("one-leaf", 0, lines(cm()))
    text("one-leaf-no-line-feed", 0, lines(cm())[:-1])
    text("a-line-feed", 1, b"\n")
    text("two-line-feeds", 1, b"\n\n")
    text("empty-line-first", 1, b"\n" + run)
    text("empty-line-in-the-middle", 1, lines(cm()) + b"\n" + lines(root(0)))
    text("empty-line-last", 1, run + b"\n")
    leaf = lines(cm(0xABCD))[:-1]
    text("letters", 0, leaf)
    text("upper-case", 1, leaf.upper())
    text("one-upper-case-digit", 1, leaf.replace(b"d", b"D"))
    for byte in b"/:`g@G\x00\xff":
        text(f"byte-{byte:02x}", 1, leaf.replace(b"d", bytes([byte])))
    text("odd", 1, leaf + b"0")
    text("one-digit-short", 1, leaf[:-1])
    text("one-digit", 1, b"0")
    text("space-before", 1, b" " + leaf)
    text("space-after", 1, leaf + b" ")
    text("two-spaces-after", 1, leaf + b"  \n")
    text("space-inside", 1, leaf[:2] + b" " + leaf[2:])
    text("tab", 1, leaf + b"\t\n")
    text("carriage-return", 1, leaf + b"\r\n")
    text("carriage-return-for-a-line-feed", 1, leaf + b"\r" + leaf)
    text("two-frames-in-a-line", 1, leaf + leaf)
    longest = lines(node(ADDC, *range(255), tail=literal(0, 1)))
    assert len(longest) == 1050 + 1
    text("1050-digits", 2, longest)
    text("1050-digits-no-line-feed", 2, longest[:-1])
    text("1051-digits", 1, longest[:-1] + b"0\n")
    text("1052-digits", 1, longest[:-1] + b"00\n")
    text("1052-digits-and-then-more", 1, lines(cm()) + longest[:-1] + b"00\n" + lines(cm()))
    text("malformed-frame", 1, lines(cm(next=2)))
    text("out-of-order", 1, lines(cm(), root(0), cm()))
    text("not-there", 3, lines(cm(), root(1)))
    text("cycle", 4, lines(exp(0), root(0)))
    text("first-fault-decides", 1, lines(node(CM, next=2), *[request(0)] * (REQUESTS + 1)))
    text("nothing-after-a-malformed-line", 1, b"x\n" + lines(*[request(0)] * (REQUESTS + 1)))
    text("nothing-after-a-limit", 9, lines(*[request(0)] * (REQUESTS + 1)) + b"x\n")
    text("malformed-line-past-a-limit", 1, lines(*[request(0)] * REQUESTS) + b"x\n")
    text("malformed-line-before-a-wrong-count", 1, lines(node(NEG)) + b"x\n")
    text("nodes-full", 0, lines(*[cm()] * NODES))
    text("nodes-one-too-many", 9, lines(*[cm()] * (NODES + 1)))
    text("expressions-full", 0, lines(*[cm()] * EXPRESSIONS, *[root(e) for e in range(EXPRESSIONS)]))
    text("expressions-one-too-many", 9, lines(*[cm()] * (EXPRESSIONS + 1), *[root(e) for e in range(EXPRESSIONS + 1)]))
    text("requests-full", 0, lines(*[request(0)] * REQUESTS))
    text("requests-one-too-many", 9, lines(*[request(0)] * (REQUESTS + 1)))


def write_or_check(name, data, check):
    path = f"{TARGET}/{name}"
    if check:
        if not os.path.exists(path) or open(path, "rb").read() != data:
            sys.exit(f"{path} is not what tools/make_pools.py makes")
    else:
        with open(path, "wb") as out:
            out.write(data)


def main():
    check = sys.argv[1:] == ["--check"]
    if len(sys.argv) > 1 and not check:
        sys.exit(__doc__)
    for part in (good, malformed, wrong_counts, not_there, cycles, limits, texts):
        part()
    entries = (bytes([f, len(n)]) + two(len(d)) + n.encode() + d for f, n, _, d in cases)
    write_or_check("stdin", b"".join(entries), check)
    write_or_check("stdout", "".join(f"{n} {e}\n" for _, n, e, _ in cases).encode(), check)
    print(f"{len(cases)} pools")


main()

#!/usr/bin/env python3
"""Write crates/replay_meaning/specs/Vectors/*.antt from vectors/generation.txt.

usage: tools/vectors_to_antt.py [--check]      (from the repository's top folder)

--check writes nothing and fails where a file is not what it would be.

Each family of vectors becomes a module with a table and one statement, proved by computation: the definitions of the crate
`meaning` give the original's answers.
This script turns the nodes of frames into trees.
"""
import os
import re
import sys

SOURCE = "vectors/generation.txt"
TARGET = "crates/replay_meaning/specs/Vectors"
# each family's module
FAMILIES = {
    "doc": "Document",
    "g": "Surprises",
    "edge": "Edges",
    "small": "Small",
    "fusing": "Fused",
    "random": "Random",
}
ROWED = {0x10: "cm", 0x11: "const", 0x13: "q"}
FLAT = {0x15: "public", 0x16: "challenge", 0x17: "eval"}
X = {0x18: "x_div_x_sub_xi", 0x19: "x_div_x_sub_w_xi", 0x1A: "plain_x"}
BARE = {0x23: "Zi", 0x24: "tree1", 0x25: "tree2", 0x26: "tree3", 0x27: "tree4", 0x28: "Z"}
MADE = {0x12: "exp", 0x20: "tmp", 0x21: "f", 0x22: "tmp_exp"}
BINARY = {0x01: "add", 0x02: "sub", 0x03: "mul"}
WITH_LITERAL = {0x05: "addc", 0x06: "mulc"}


def read_vectors(path):
    name = None
    for line in open(path, encoding="ascii"):
        line = line.strip()
        if not line or line.startswith("#"):
            continue
        if line.startswith("vector "):
            name, script, answers, part = line[7:], [], [], 0
        elif line == "answers":
            part = 1
        elif line == "end":
            yield name, script, answers
        else:
            (answers if part else script).append(line)


def literal(data):
    return f"(lit {'true' if data[0] else 'false'} {int.from_bytes(data[1:9], 'big')})"


def node(nodes, number):
    frame = nodes[number]
    kind, ahead, ident, count = frame[1], frame[2], int.from_bytes(frame[3:5], "big"), frame[5]
    children = [int.from_bytes(frame[6 + 2 * k : 8 + 2 * k], "big") for k in range(count)]
    trees = " ".join(node(nodes, c) for c in children)
    rest = frame[6 + 2 * count :]
    if kind in BINARY:
        return f"(bin {number} {BINARY[kind]} {trees})"
    if kind == 0x04:
        return f"(muladd {number} {trees})"
    if kind in WITH_LITERAL:
        return f"(binc {number} {WITH_LITERAL[kind]} {trees} {literal(rest)})"
    if kind == 0x07:
        return f"(neg {number} {trees})"
    return f"(leaf {number} {leaf(kind, ident, ahead, rest)})"


def leaf(kind, ident, ahead, rest):
    if kind in ROWED:
        return f"(cell {ROWED[kind]} {ident} {ahead})"
    if kind == 0x12:
        return f"(exp {ident} {ahead})"
    if kind == 0x14:
        return f"(number {literal(rest)})"
    if kind in FLAT:
        return f"(flat {FLAT[kind]} {ident})"
    return f"(x {X[kind]})"


def result_kind(byte):
    for table, name in ((ROWED, "row"), (FLAT, "flat"), (X, "x"), (BARE, "bare")):
        if byte in table:
            return f"(Kind.{name} {table[byte]})"
    return f"Kind.{MADE[byte]}"


def boolean(flag):
    return "true" if flag else "false"


def forest(frames):
    nodes = [f for f in frames if f[0] == 0x01]
    out = []
    for frame in (f for f in frames if f[0] == 0x02):
        flags = frame[3]
        tree = node(nodes, int.from_bytes(frame[1:3], "big"))
        out.append(f"expression {tree} {boolean(flags & 1)} {boolean(flags & 2)} {boolean(flags & 4)}")
    return chain(out)


def command(line):
    words = line.split()
    if words[0] == "build":
        return "build"
    asked = "none" if len(words) == 4 else f"(some (result {result_kind(int(words[4], 16))} {words[5]}))"
    return f"ask {words[1]} {words[2]} {boolean(words[3] == '1')} {asked}"


def chain(items):
    return " ∷ ".join(items + ["[]"])


def bits(word):
    return "0b1" + ("" if word == "-" else word)


def expected(answers):
    """The answers as the numbers that `answers` of specs/Replay.antt gives."""
    out, lists, counter, marks, accepted = [], {}, "", [], False
    for line in answers:
        word, *rest = line.split()
        if word == "ok":
            accepted = True
        elif word == "refused":
            out.append(rest[0])
        elif word in ("first", "i", "last"):
            lists.setdefault(word, []).append("0x" + rest[0])
        elif word == "counter":
            counter = rest[0]
        elif word == "marks":
            marks = [bits(rest[0]), bits(rest[1])]
            if not accepted:
                for name in ("first", "i", "last"):
                    steps = lists.get(name, [])
                    out += [str(len(steps))] + steps
                out += [counter] + marks
                lists = {}
        elif word == "blocks":
            blocks = [] if rest[0] == "-" else rest
            out += ["0", counter] + marks + [str(len(blocks))] + [block_number(b) for b in blocks]
            accepted = False
    return out


def block_number(block):
    e, p, s = (int(n) for n in block.split(":"))
    return str((e * 256 + p) * 65536 + s)


def vector(script, answers):
    frames = [bytes.fromhex(line) for line in script if line[0] == "0"]
    commands = [command(line) for line in script if line[0] != "0"]
    return f"vector\n    ({forest(frames)})\n    ({chain(commands)})\n    ({chain(expected(answers))})"


def family_of(name):
    return next(f for f in FAMILIES if name.startswith(f))


HEADER = """-- The {count} vectors of the family {family}, made by tools/vectors_to_antt.py.
-- Assumes nothing.
use Rattle.std.specs.Prelude.{{◌≡◌, refl, true, false, List, [], ◌∷◌}}
use Rattle.std.proofs.Math.Option.{{none, some}}
use Rattle.meaning.specs.Trees.{{lit, cm, const, q, public, challenge, eval, x_div_x_sub_xi, x_div_x_sub_w_xi, plain_x, add, sub, mul, addc, mulc, cell, exp, number, flat, x, leaf, bin, muladd, binc, neg}}
use Rattle.meaning.specs.Steps.{{Zi, tree1, tree2, tree3, tree4, Z, Kind}}
use Rattle.meaning.specs.Generation.{{result}}
use Rattle.replay_meaning.specs.Replay.{{Vector, vector, ask, build, expression, agree}}

"""


def module(family, vectors):
    name = FAMILIES[family]
    text = HEADER.format(family=family, count=len(vectors))
    text += "unfoldable pub vectors : List Vector\nvectors =\n"
    text += "".join(f"    -- {n}\n    {vector(s, a)} ∷\n" for n, s, a in vectors) + "    []\n\n"
    text += "pub agreed : agree vectors ≡ true\nunfolding vectors\nagreed = refl\n"
    return f"{TARGET}/{name}.antt", text


def named(text):
    """The text without the names on its `use` lines that nothing below them uses, as `rt tidy` leaves it."""
    lines = text.split("\n")
    uses = [line for line in lines if line.startswith("use ")]
    body = "\n".join(line.partition("--")[0] for line in lines if not line.startswith("use "))
    words = set(re.findall(r"(?<![^\s(){},;])[^\s(){}.,;]+", body))
    kept = {}
    for use in uses:
        module, brace, names = use.partition(".{")
        stays = [name for name in names.rstrip("}").split(", ") if not brace or name == "[]" or name.strip("◌") in words]
        kept[use] = use if not brace else module + brace + ", ".join(stays) + "}" if stays else None
    return "\n".join(kept.get(line, line) for line in lines if kept.get(line, line) is not None)


def read(path):
    if not os.path.exists(path):
        return ""
    with open(path, encoding="utf-8") as file:
        return file.read()


def write_or_check(modules, source, target, usage):
    """Write modules, given as names with texts, into a folder; or with --check say which of them do not stand there so."""
    check = sys.argv[1:] == ["--check"]
    if len(sys.argv) > 1 and not check:
        sys.exit(usage)
    wrong = []
    for name, text in modules:
        path, text = os.path.join(target, name + ".antt"), named(text)
        if not check:
            with open(path, "w", encoding="utf-8") as out:
                out.write(text)
        elif read(path) != text:
            wrong.append(path)
    for path in wrong:
        print(f"{path} is not what {source} gives")
    sys.exit(1 if wrong else 0)


def main():
    check = sys.argv[1:] == ["--check"]
    if len(sys.argv) > 1 and not check:
        sys.exit(__doc__)
    by_family = {family: [] for family in FAMILIES}
    for name, script, answers in read_vectors(SOURCE):
        by_family[family_of(name)].append((name, script, answers))
    for family, vectors in by_family.items():
        path, text = module(family, vectors)
        text = named(text)
        if not check:
            os.makedirs(TARGET, exist_ok=True)
            with open(path, "w", encoding="utf-8") as out:
                out.write(text)
        elif read(path) != text:
            sys.exit(f"{path} is not what tools/vectors_to_antt.py makes of {SOURCE}")
    print(f"{sum(map(len, by_family.values()))} vectors in {len(FAMILIES)} families")


if __name__ == "__main__":
    main()

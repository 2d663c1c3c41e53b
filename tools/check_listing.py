#!/usr/bin/env python3
"""Hold the program listing to what this script makes, by itself, of the frames and of the list that the program steps prints.

usage: tools/check_listing.py LISTING STEPS FILE..

Each stored run of the files (vectors/steps.txt) is shown with its stored list, and the longest expression and RANDOM pools more with the list
that STEPS prints for them, the same every time. Outputs are compared byte for byte, but for the node that a refusal blames. In small pools each
expression is also read back, by Python's own parser: without its brackets it is the tree that it is with all of them. It ends with
status 1 at a difference. Nothing but Python's own library is needed.
"""
import ast
import random
import re
import subprocess
import sys
from concurrent.futures import ThreadPoolExecutor

from replay_steps import AT_A_TIME, PATIENCE, Malformed, difference, runs

RANDOM = 400
SMALL = 60

ADD, SUB, MUL, MULADD, ADDC, MULC, NEG = range(1, 8)
CM, CONST, EXP, Q, NUMBER, PUBLIC, CHALLENGE, EVAL, X1, X2, X = range(0x10, 0x1B)
TMP, COPY = 0x20, 8
CHILDREN = {ADD: 2, SUB: 2, MUL: 2, MULADD: 3, ADDC: 1, MULC: 1, NEG: 1}
NAMES = {CM: "cm", CONST: "const", EXP: "exp", Q: "q", PUBLIC: "public", CHALLENGE: "challenge", EVAL: "eval", TMP: "tmp"}
X_NAMES = {X1: "xDivXSubXi", X2: "xDivXSubWXi", X: "x"}

OPENING = (
    "Steps run from the top: step 1 is the first, and a tmp or exp is written above every step that reads it.\n"
    "Above each block is its expression as the circuit wrote it. A prime (') means the next row; behind brackets, for all inside them.\n"
)
MEANINGS = {
    1: "malformed line or frame: text that is no frame, an unknown kind, frames out of order, a prime, muladd or next byte that is not 0 or 1, "
    "expression flags above 7, an unused id that is not 0, minus zero, or a literal out of range",
    2: "a child count differs from that of the node's kind",
    3: "a child is not earlier than its parent, a node is used twice, or a root or an expression number is not there",
    4: "exp leaves form a cycle",
    5: "a primed evaluation reaches a cm, const, exp or q leaf with next",
    9: "there are more than 4,096 nodes, 512 expressions or 1,024 requests, or the list does not fit",
}
BLAME = re.compile(rb" \(node [0-9]+\)\.\n$")


class Frame:
    """The numbers of a line, taken off its front."""

    def __init__(self, line):
        self.bytes = bytes.fromhex(line)

    def take(self, n):
        taken, self.bytes = self.bytes[:n], self.bytes[n:]
        return int.from_bytes(taken, "big")

    def literal(self):
        return ("-" if self.take(1) else "") + str(self.take(8))


def name(kind, number, prime):
    if kind in X_NAMES:
        return X_NAMES[kind]
    return NAMES[kind] + str(number) + ("'" if prime and kind not in (PUBLIC, CHALLENGE, EVAL) else "")


class Pool:
    """The text of each node, with as few brackets as can be and with all, made from the first node on: a child comes before its parent."""

    def __init__(self, lines):
        self.short, self.full, self.binding, self.roots = [], [], [], []
        for line in lines:
            frame = Frame(line)
            kind = frame.take(1)
            if kind == 1:
                self.node(frame)
            elif kind == 2:
                self.roots.append(frame.take(2))

    def node(self, frame):
        kind, prime, number = frame.take(1), frame.take(1), frame.take(2)
        children = [frame.take(2) for _ in range(frame.take(1))]
        if kind in CHILDREN:
            self.operation(kind, children, frame)
            return
        text = frame.literal() if kind == NUMBER else name(kind, number, prime)
        self.put(text, text, 2)

    def operation(self, kind, children, frame):
        at = lambda k, least: self.short[children[k]] if least <= self.binding[children[k]] else f"({self.short[children[k]]})"
        full = [self.full[child] for child in children]
        if kind == NEG:
            self.put(f"-({self.short[children[0]]})", f"(-{full[0]})", 2)
        elif kind in (ADDC, MULC):
            sign, literal = "+" if kind == ADDC else "*", frame.literal()
            self.put(f"{at(0, kind - ADDC)} {sign} {literal}", f"({full[0]} {sign} {literal})", kind - ADDC)
        elif kind == MULADD:
            self.put(f"{at(0, 1)} * {at(1, 2)} + {at(2, 1)}", f"(({full[0]} * {full[1]}) + {full[2]})", 0)
        else:
            sign, own = {ADD: ("+", 0), SUB: ("-", 0), MUL: ("*", 1)}[kind]
            self.put(f"{at(0, own)} {sign} {at(1, own + 1)}", f"({full[0]} {sign} {full[1]})", own)

    def put(self, short, full, binding):
        self.short.append(short)
        self.full.append(full if len(self.full) < SMALL else "")
        self.binding.append(binding)

    def ambiguous(self):
        if len(self.short) > SMALL:
            return None
        read = lambda text: ast.dump(ast.parse(text.replace("'", "_")))
        return next((short for short, full in zip(self.short, self.full) if read(short) != read(full)), None)


class Step:
    def __init__(self, line):
        frame = Frame(line)
        self.op = frame.take(1)
        self.kind, self.number, self.prime = frame.take(1), frame.take(2), frame.take(1)
        self.sources = [self.source(frame) for _ in range(frame.take(1))]

    @staticmethod
    def source(frame):
        kind, number, prime = frame.take(1), frame.take(2), frame.take(1)
        return frame.literal() if kind == NUMBER else name(kind, number, prime)

    def __str__(self):
        value = {ADD: "{} + {}", SUB: "{} - {}", MUL: "{} * {}", MULADD: "{} * {} + {}", COPY: "{}"}[self.op]
        return f"{name(self.kind, self.number, self.prime)} = {value.format(*self.sources)}"


def counted(n, one, several):
    return f"{n} {one if n == 1 else several}"


def listing(data, output):
    """What the program is to show of these frames and this list of them."""
    lines = output.decode().splitlines()
    if lines[-1].startswith("ff"):
        number = int(lines[-1][2:], 16)
        return f"Refused ({number}): {MEANINGS[number]}.\n".encode(), None
    pool = Pool(data.decode().splitlines())
    text, first = [OPENING], 0
    steps = [Step(line) for line in lines[:-1]]
    for last, step in enumerate(steps):
        if step.kind == EXP:
            written = pool.short[pool.roots[step.number]]
            row = f"next row: ({written})'" if step.prime else f"this row: {written}"
            text.append(f"\nexpression {step.number}, {row}\n")
            text += [f"{k + 1}: {steps[k]}\n" for k in range(first, last + 1)]
            first = last + 1
    text.append(f"\n{counted(len(steps), 'step', 'steps')}, {counted(int(lines[-1][2:], 16), 'temporary', 'temporaries')}\n")
    return "".join(text).encode(), pool.ambiguous()


class Maker:
    """A random pool whose exp leaves lead to earlier expressions, and requests."""

    def __init__(self, seed):
        self.random = random.Random(seed)
        self.lines, self.nodes = [], 0
        self.expressions = self.random.randint(1, 4)
        roots = [self.tree(e, self.random.randint(0, 4)) for e in range(self.expressions)]
        self.lines += [f"02{root:04x}00" for root in roots]
        for _ in range(self.random.randint(1, 6)):
            self.lines.append(f"03{self.random.randrange(self.expressions):04x}0{self.random.randint(0, 1)}0{self.random.randint(0, 1)}")

    def tree(self, e, depth):
        kinds = list(CHILDREN) if depth else [k for k in range(CM, X + 1) if k != EXP or e]
        kind = self.random.choice(kinds)
        children = [self.tree(e, self.random.randint(0, depth - 1)) for _ in range(CHILDREN.get(kind, 0))]
        return self.node(kind, children, e)

    def node(self, kind, children, e):
        has_number = kind in NAMES
        number = self.random.randrange(e) if kind == EXP else self.random.choice((0, 1, 65535)) if has_number else 0
        prime = int(self.random.random() < 0.2)
        line = f"01{kind:02x}{prime:02x}{number:04x}{len(children):02x}" + "".join(f"{child:04x}" for child in children)
        if kind in (ADDC, MULC, NUMBER):
            most = 2**64 - 1 if kind == NUMBER else 2**63 - 1
            magnitude = self.random.choice((0, 1, 5, 10, most, self.random.randint(0, most)))
            line += f"{int(magnitude and self.random.random() < 0.5):02x}{magnitude:016x}"
        self.lines.append(line)
        self.nodes += 1
        return self.nodes - 1


def longest():
    """As much text as an expression can have: 4,096 nodes, each the longest literal in brackets or not; at both rows."""
    chain = [f"01{ADDC + i % 2:02x}00000001{i:04x}018000000000000000" for i in range(4095)]
    return [f"01{NUMBER:02x}0000000001" + "f" * 16, *chain, "020fff00", "0300000000", "0300000100"]


def printed(program, data):
    done = subprocess.run([program], input=data, stdout=subprocess.PIPE, stderr=subprocess.DEVNULL, timeout=PATIENCE, check=True)
    return done.stdout


def fault(program, data, output):
    expected, ambiguous = listing(data, output)
    shown = printed(program, data)
    if expected.startswith(b"Refused"):
        shown = BLAME.sub(b".\n", shown)
    if ambiguous:
        return f"{ambiguous} does not read back"
    return None if shown == expected else difference(expected, shown)


def main():
    if len(sys.argv) < 4:
        sys.exit(__doc__)
    program, steps = (p if "/" in p else f"./{p}" for p in sys.argv[1:3])
    cases = {}
    try:
        for path in sys.argv[3:]:
            with open(path, encoding="ascii", newline="") as file:
                cases.update(runs(file.read()))
        made = {"longest": longest(), **{f"made-{seed}": Maker(seed).lines for seed in range(RANDOM)}}
        for case, lines in made.items():
            data = "".join(line + "\n" for line in lines).encode()
            cases[case] = (data, printed(steps, data))
        with ThreadPoolExecutor(AT_A_TIME) as pool:
            found = pool.map(lambda case: fault(program, *case), cases.values())
            wrong = {case: what for case, what in zip(cases, found) if what}
    except (OSError, UnicodeDecodeError, Malformed, subprocess.SubprocessError) as error:
        sys.exit(str(error))
    for case, what in wrong.items():
        print(f"{case}: {what}", file=sys.stderr)
    print(f"listing: {len(cases)} lists, {len(cases) - len(wrong)} shown as they are")
    sys.exit(1 if wrong else 0)


if __name__ == "__main__":
    main()

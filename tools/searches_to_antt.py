#!/usr/bin/env python3
"""Write crates/replay_searches/specs/Vectors/*.antt from vectors/searches.txt.

usage: tools/searches_to_antt.py [--check]      (from the repository's top folder)

--check writes nothing and fails where a file is not what it would be.

Each family of vectors that ask for a search becomes a module with a table and one statement, proved by computation: the definitions of
the crate `search_meaning` give the original's set, q and visits, or the document's refusal. So do those that ask for a constraint, all in
one module, with the definitions of `constraint_meaning`: the intermediates, the constraint's tree, the columns, and both lists.
"""
from vectors_to_antt import bits, chain, command, forest, read_vectors, write_or_check

SOURCE = "vectors/searches.txt"
TARGET = "crates/replay_searches/specs/Vectors"
# each family's module
FAMILIES = {"doc": "Document", "s": "Surprises", "edge": "Edges", "order": "Orders", "limit": "Limits", "random": "Random"}
USES = """-- Assumes nothing.
use Rattle.std.specs.Prelude.{◌≡◌, refl, true, false, List, [], ◌∷◌}
use Rattle.meaning.specs.Trees.{lit, cm, const, q, public, challenge, eval, x_div_x_sub_xi, x_div_x_sub_w_xi, plain_x, add, sub, mul, addc, mulc, cell, exp, number, flat, x, leaf, bin, muladd, binc, neg}
use Rattle.search_meaning.specs.Degrees.{full_table}
use Rattle.search_meaning.specs.Search.{search}
use Rattle.replay_meaning.specs.Replay.{expression}
use Rattle.replay_searches.specs.Replay.{Vector, vector, agree}
"""
CONSTRAINT = "Constraint"
CONSTRAINT_USES = (
    USES.replace("◌∷◌}\n", "◌∷◌}\nuse Rattle.std.proofs.Math.Option.{none}\n")
    .replace("{expression}", "{ask, build, expression}")
    .replace("replay_searches.specs.Replay.{Vector, vector, agree}", "replay_searches.specs.Constraints.{asked, Vector, vector, agree}")
)
NODE = 0x01
# cm, const, exp, q
WITH_NEXT = (0x10, 0x11, 0x12, 0x13)


def said(lines):
    """The words after the first of each line, by the first; frames are left out."""
    return {line.split()[0]: [word for word in line.split()[1:] if word != "-"] for line in lines if not line.startswith("0")}


def frames(lines):
    return [bytes.fromhex(line) for line in lines if line.startswith("0")]


def expected(answers):
    """The original's answer as `numbers` of Replay.antt gives it."""
    words = said(answers)
    if "refused" in words:
        return words["refused"]
    return ["0"] + words["q"] + words["visits"] + words["set"]


def vector(name, question, answers):
    words = said(question)
    asked = f"({chain(words['identities'])}) {' '.join(words['bits'])} {words['limit'][0]}"
    return f"    -- {name}\n    vector\n    ({forest(frames(question))})\n    {asked}\n    ({chain(expected(answers))}) ∷\n"


def tree_numbers(nodes, number, start):
    """The tree at a node in prefix order with the numbers of its nodes, as `tree_numbers` of Constraints.antt gives it; the first node has
    number `start`."""
    frame = nodes[number - start]
    kind, ahead, ident, count = frame[1], frame[2], int.from_bytes(frame[3:5], "big"), frame[5]
    children = [int.from_bytes(frame[6 + 2 * k : 8 + 2 * k], "big") for k in range(count)]
    rest = frame[6 + 2 * count :]
    literal = [rest[0], int.from_bytes(rest[1:9], "big")] if rest else []
    head = [kind] if count else [(kind * 256 + (ahead if kind in WITH_NEXT else 0)) * 65536 + ident]
    return [number] + head + literal + [n for child in children for n in tree_numbers(nodes, child, start)]


def counted(items):
    return [len(items)] + items


def built(answers, name):
    """The lists of a segment, its counter and the marks after it."""
    lines = [line.split()[1:] for line in answers if line.startswith(name + " ")]
    lists = [["0x" + words[1] for words in lines if words[0] == key] for key in ("first", "i", "last")]
    state = {words[0]: words[1:] for words in lines}
    return [item for steps in lists for item in counted(steps)] + state["counter"] + [bits(word) for word in state["marks"]]


def expected_constraint(answers, before):
    """The original's answer as `numbers` of Constraints.antt gives it, for a pool of so many nodes before."""
    words = said(answers)
    if "refused" in words:
        return words["refused"]
    members = [number for pair in words["im"] for number in pair.split(":")]
    nodes = [bytes.fromhex(line.split()[1]) for line in answers if line.startswith("node ")]
    tree = tree_numbers(nodes, before + len(nodes) - 1, before)
    out = ["0"] + words["q"] + words["visits"] + counted(words["set"]) + counted(members) + [before + len(nodes)] + counted(tree)
    out += words["columns"] + counted(words["qs"]) + built(answers, "step3") + built(answers, "step42ns")
    return [str(item) for item in out]


def constraint(name, question, answers):
    words, own = said(question), frames(question)
    before = sum(frame[0] == NODE for frame in own)
    numbers = words["bits"] + words["limit"] + words["columns"] + words["vc"]
    done = [chain([command(line.split(" ", 1)[1]) for line in question if line.startswith(key + " ")]) for key in ("first", "second")]
    text = f"    -- {name}\n    vector\n    ({forest(own)})\n    {before} (asked ({chain(words['identities'])}) {' '.join(numbers)})\n"
    return text + f"    ({done[0]}) ({done[1]})\n    ({chain(expected_constraint(answers, before))}) ∷\n"


def module(title, vectors, uses=USES):
    text = f"-- The {len(vectors)} vectors {title}, made by tools/searches_to_antt.py.\n{uses}\n"
    text += "unfoldable pub vectors : List Vector\nvectors =\n" + "".join(vectors) + "    []\n\n"
    return text + "-- THE DEFINITIONS GIVE THE ORIGINAL'S ANSWERS\npub all-agree : agree vectors ≡ true\nunfolding search full_table vectors\nall-agree = refl\n"


def modules():
    families, constraints = {family: [] for family in FAMILIES}, []
    for name, question, answers in read_vectors(SOURCE):
        if said(question)["ask"] == ["constraint"]:
            constraints.append(constraint(name, question, answers))
        else:
            family = next(f for f in sorted(FAMILIES, key=len, reverse=True) if name.startswith(f))
            families[family].append(vector(name, question, answers))
    for family, vectors in families.items():
        yield FAMILIES[family], module(f"of searches of the family {family}", vectors)
    yield CONSTRAINT, module("that ask for a constraint", constraints, CONSTRAINT_USES)


def main():
    write_or_check(modules(), SOURCE, TARGET, __doc__)


if __name__ == "__main__":
    main()

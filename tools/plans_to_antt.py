#!/usr/bin/env python3
"""Write crates/replay_plans/specs/Vectors/*.antt from vectors/plans.txt.

usage: tools/plans_to_antt.py [--check]      (from the repository's top folder)

--check writes nothing and fails where a file is not what it would be.

Each family of vectors that ask `map` becomes a module with a table and one statement, proved by computation: the definitions of
the crates `plans`, `exp_dims`, `map_records`, `sections` and `plan_tables` give the original's records, cm_dims and q_dim, positions, cm_n, cm_2ns, exp2pol,
widths and offsets, and the document's refusals. So do
those that ask `exp_dims`, those that ask `sections`, with the definitions of the crate `sections`, and those that ask for a walk over a
segment, with those of `fixing`, `query_fixing` and `dimensions`.
Left out are plans that form a cycle (4), which no test of the definitions tells, and records of a section that there is not, which
are refused (1) where the original leaves them alone.
"""
from vectors_to_antt import read_vectors, write_or_check

SOURCE = "vectors/plans.txt"
TARGET = "crates/replay_plans/specs/Vectors"
# each family's module
FAMILIES = {"m": "Surprises", "edge": "Edges", "order": "Orders", "shape": "Shapes", "random": "Random"}
CYCLE = ["refused 4"]
USES = """-- Assumes nothing.
use Rattle.std.specs.Prelude.{◌≡◌, refl, true, List, [], ◌∷◌}
use Rattle.frames.specs.Tables.{first}
use Rattle.kinds.specs.BigEndian.{u16_at}
use Rattle.kinds.specs.Kinds.{child_count}
use Rattle.kinds.specs.Range.{within}
use Rattle.pool.specs.Trees.{tree}
use Rattle.pool.specs.Admission.{shape}
use Rattle.exp_dims.specs.Dimension.{exp_dim}
use Rattle.plans.specs.Plan.{number_at, is_plan}
use Rattle.plans.specs.Columns as plan
use Rattle.plans.specs.Columns.{among, is_im, adding, fits}
use Rattle.plans.specs.Agreement.{names_there, bits_good, counts_agree}
use Rattle.map_records.specs.Mapping.{column, cm1s, lookups, products, intermediates, quotient_dim, quotients, mapped, some_none}
use Rattle.sections.specs.Sections.{placed, position_of, first_width, whole_width, third_width}
use Rattle.replay_plans.specs.Replay.{Vector, vector, node, root, agree}
"""
UNFOLDING = (
    "first u16_at child_count within tree shape exp_dim number_at is_plan plan.lookups plan.products among is_im adding fits names_there "
    "bits_good counts_agree column cm1s lookups products intermediates quotient_dim quotients mapped some_none placed position_of first_width whole_width third_width vectors"
)
DIMENSIONS = "Dimensions"
SECTIONS = "Sections"
SECTION_COUNT = 11
# an expression without a record in exp2pol
NO_RECORD = 0xFFFF
# each walk that is asked for: its constructor, and the module of its vectors
WALKS = {
    "fix n": ("fix_n", "Fixing"),
    "fix 2ns": ("fix2ns", "Fixing"),
    "query": ("query", "Queries"),
    "dims": ("dims", "Passes"),
    "dims_first": ("dims_first", "Passes"),
    "fix_dims n": ("fix_dims_n", "FixedPasses"),
    "fix_dims 2ns": ("fix_dims2ns", "FixedPasses"),
    "query_dims": ("query_dims", "FixedPasses"),
}
KINDS = {
    "cm": 0x10, "const": 0x11, "exp": 0x12, "q": 0x13, "number": 0x14, "public": 0x15, "challenge": 0x16, "eval": 0x17, "xDivXSubXi": 0x18,
    "xDivXSubWXi": 0x19, "x": 0x1A, "tmp": 0x20, "f": 0x21, "tmpExp": 0x22, "Zi": 0x23, "tree1": 0x24, "tree2": 0x25, "tree3": 0x26, "tree4": 0x27,
    "Z": 0x28,
}  # fmt: skip
STEPS = {"add": 1, "sub": 2, "mul": 3, "muladd": 4, "copy": 8}
SECTION_USES = """-- Assumes nothing.
use Rattle.std.specs.Prelude.{◌≡◌, refl, true, List, [], ◌∷◌}
use Rattle.kinds.specs.Range.{within}
use Rattle.sections.specs.Sections.{placed, position_of, first_width, whole_width, third_width}
use Rattle.replay_plans.specs.Replay.{Placing, placing, agree_placed}
"""
SECTION_UNFOLDING = "within placed position_of first_width whole_width third_width vectors"
WALK_USES = USES.replace("use Rattle.replay_plans.specs.Replay.{Vector, vector, node, root, agree}\n", """use Rattle.kinds.specs.Kinds.{is_reference, is_leaf}
use Rattle.kinds.specs.StepOps.{is_step, sources_needed}
use Rattle.lent_lists.specs.Records as lists
use Rattle.lent_lists.specs.Records.{runs, used_by, record_by}
use Rattle.lent_lists.specs.Walks.{walked, used_verdict, record_verdict}
use Rattle.fixing.specs.ProverCode.{rule_kind, rule_id, rule_dim, rule_for, ruled_reference, meet_reference, meet_used, meet_record, meet_records, fix_reference}
use Rattle.query_fixing.specs.QueryCode.{tree_for, tree_kind, tree_position, tree_dim, has_tree, treed_reference, tree_reference}
use Rattle.step_dimensions.specs.Rules.{rule_no, is_destination}
use Rattle.step_dimensions.specs.StepDimensions.{through, source_dim, source_dims, largest, step_with, noted}
use Rattle.dimensions.specs.Dimensions.{passed}
use Rattle.replay_plans.specs.Replay.{node, root}
use Rattle.replay_plans.specs.Walks.{WalkVector, walk_vector, lists', ref, step, blank, fix_n, fix2ns, query, dims, dims_first, fix_dims_n, fix_dims2ns, query_dims, no_more, becomes, agree_walked}
""")
WALK_UNFOLDING = UNFOLDING + (
    " is_reference is_leaf is_step sources_needed runs used_by record_by lists.mapped walked used_verdict record_verdict rule_kind rule_id rule_dim "
    "rule_for ruled_reference meet_reference meet_used meet_record meet_records fix_reference tree_for tree_kind tree_position tree_dim has_tree treed_reference "
    "tree_reference rule_no is_destination through source_dim source_dims largest step_with noted passed"
)
HEAD = ["pu", "pe", "ci", "im", "qs", "q2exp"]


def numbers(words):
    return [int(word) for word in words]


def plan_bytes(lines):
    """The record of a plan, as the header of vectors/plans.txt says."""
    parts = {key: [] for key in HEAD}
    for line in lines:
        word, *rest = line.split()
        if word == "plan":
            return list(bytes.fromhex(rest[0])) if rest else []
        if word == "bits":
            bits = numbers(rest)
        elif word in ("columns", "quotient"):
            parts.setdefault("head", []).extend(numbers(rest))
        elif word in ("qs", "q2exp"):
            parts[word] = [[number] for number in numbers(rest)]
        elif word in HEAD:
            parts[word].append(numbers(rest))
    flat = parts["head"] + [len(parts[key]) for key in HEAD] + [n for key in HEAD for entry in parts[key] for n in entry]
    return bits + [byte for n in flat for byte in (n // 256, n % 256)]


def node(frame):
    kind, ident, count = frame[1], int.from_bytes(frame[3:5], "big"), frame[5]
    children = [int.from_bytes(frame[6 + 2 * k : 8 + 2 * k], "big") for k in range(min(count, 3))] + [0, 0, 0]
    return f"node {kind} {ident} {count} {children[0]} {children[1]} {children[2]}"


def listed(items):
    return "(" + "".join(f"{item} ∷ " for item in items) + "[])"


def expected(question, answers):
    """The original's answer as `answer` of Replay.antt gives it."""
    expressions = sum(line.startswith("02") and " " not in line for line in question)
    if answers[0].startswith("refused"):
        return [int(answers[0].split()[1])]
    said = {line.split()[0]: [word for word in line.split()[1:] if word != "-"] for line in answers}
    records = [record.split(":") for record in said["records"]]
    columns = [entry.split(":") for entry in said["tmpexp"]]
    exp2pol = dict(entry.split(":") for entry in said["exp2pol"])
    placed = [exp2pol.get(str(e), NO_RECORD) for e in range(expressions)]
    rows = [[r[0] for r in records], [r[1] for r in records], [c[0] for c in columns], said["cm_dims"], said["q_dim"]]
    rows += [[r[2] for r in records], said["cm_n"], said["cm_2ns"], [c[1] for c in columns], placed]
    rows += [said["n1"] + said["n"] + said["n3"], said["offsets"] + said["total"]]
    return [0] + [int(n) for row in rows for n in [len(row)] + row]


def vector(name, question, wanted):
    frames = [bytes.fromhex(line) for line in question if line[0] == "0" and " " not in line]
    nodes = listed(node(frame) for frame in frames if frame[0] == 1)
    roots = listed(f"root {int.from_bytes(frame[1:3], 'big')}" for frame in frames if frame[0] == 2)
    plan = plan_bytes([line for line in question if not (line[0] == "0" and " " not in line)])
    return f"    -- {name}\n    vector\n    {nodes}\n    {roots}\n    {listed(plan)}\n    {listed(wanted)} ∷\n"


def placing(name, question, answers):
    records = [line.split()[1:] for line in question if line.startswith("record")]
    columns = [listed(record[k] for record in records) for k in range(3)]
    wanted = [word for line in answers for word in line.split()[1:] if word != "-"]
    return f"    -- {name}\n    placing {columns[0]} {columns[1]} {columns[2]}\n    {listed(wanted)} ∷\n"


def reference(text):
    """KIND:ID, with ' where it is primed, and after @ its fields that are not 0; the literal of a number is not looked at by any walk."""
    cell, _, fields = text.partition("@")
    kind, _, ident = cell.partition(":")
    primed = ident.endswith("'")
    number = 0 if kind == "number" else int(ident.rstrip("'"))
    said = {field[0]: field[1:] for field in fields.split(",") if field}
    values = [said.get(key, "0") for key in "dpte"]
    return f"(ref {KINDS[kind]} {int(primed)} {number} {' '.join(values)})"


def step(line):
    dest, _, right = line.partition(" = ")
    name, *sources = right.split()
    op = STEPS[name] if name in STEPS else int(name[4:], 16)
    refs = [reference(source) for source in sources] + ["blank"] * (3 - len(sources))
    return f"step {op} {len(sources)} {reference(dest)} {' '.join(refs)}"


def segment(lines):
    counter = next(line.split()[1] for line in lines if line.startswith("counter"))
    lists = [listed(step(line.split(" ", 1)[1]) for line in lines if line.startswith(key + " ")) for key in ("first", "i", "last")]
    return f"(lists' {counter} {' '.join(lists)})"


def walk(name, question, answers, constructor):
    asked = ("counter", "first ", "i ", "last ")
    head = vector(name, [line for line in question if not line.startswith(asked)], []).splitlines()[2:5]
    refused = answers[0].startswith("refused")
    outcome = f"(no_more {answers[0].split()[1]})" if refused else f"(becomes {segment(answers)})"
    return f"    -- {name}\n    walk_vector\n" + "\n".join(head) + f"\n    {constructor}\n    {segment(question)}\n    {outcome} ∷\n"


def module(title, uses, kind, vectors, agree, unfolding):
    text = f"-- The {len(vectors)} vectors {title}, made by tools/plans_to_antt.py.\n{uses}\n"
    text += f"unfoldable pub vectors : List {kind}\nvectors =\n" + "".join(vectors) + "    []\n\n"
    return text + f"-- THE DEFINITIONS GIVE THE ORIGINAL'S ANSWERS\npub all-agree : {agree} vectors ≡ true\nunfolding {unfolding}\nall-agree = refl\n"


def modules():
    families = {key: [] for key in FAMILIES}
    dims, sections = [], []
    walks = {name: [] for _, name in WALKS.values()}
    for name, question, answers in read_vectors(SOURCE):
        asked = next(line for line in question if line.startswith("ask "))
        rest = [line for line in question if line != asked]
        if asked == "ask map" and answers != CYCLE:
            key = next(k for k in sorted(FAMILIES, key=len, reverse=True) if name.startswith(k))
            families[key].append(vector(name, rest, expected(rest, answers)))
        elif asked == "ask exp_dims" and not answers[0].startswith("refused"):
            dims.append(vector(name, rest, answers[0].split()[1:]))
        elif asked == "ask sections" and all(int(line.split()[1]) < SECTION_COUNT for line in rest):
            sections.append(placing(name, rest, answers))
        elif asked[4:] in WALKS and answers != CYCLE:
            constructor, target = WALKS[asked[4:]]
            walks[target].append(walk(name, rest, answers, constructor))
    for key, vectors in families.items():
        yield FAMILIES[key], module(f"of the family {key}", USES, "Vector", vectors, "agree", UNFOLDING)
    yield DIMENSIONS, module("that ask for the dimensions of expressions", USES.replace("root, agree}", "root, agree_dims}"), "Vector", dims, "agree_dims", UNFOLDING)
    for target, vectors in walks.items():
        yield target, module("of walks", WALK_USES, "WalkVector", vectors, "agree_walked", WALK_UNFOLDING)
    yield SECTIONS, module("that ask for sections", SECTION_USES, "Placing", sections, "agree_placed", SECTION_UNFOLDING)


def main():
    write_or_check(modules(), SOURCE, TARGET, __doc__)


if __name__ == "__main__":
    main()

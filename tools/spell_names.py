#!/usr/bin/env python3
"""Spells this repository's definitions and lemmas as today's Rattle does. usage: spell_names.py [--say], once, after port.py, at the top of the repository

Words are in snake case (wordOf becomes word_of); a definition's name has no dash (with-copy becomes with_copy); in a lemma's name a dash joins two names,
and a plain word is added with _ (members-few becomes members_few, where few names nothing). A name that would fall together with another stays.
Functions of src/, strings, inputs and outputs keep their names. --say prints the table and writes nothing."""

import collections
import os
import re
import sys

SPLIT = re.compile(r"([\s(){}.,;:@`\"«»|]+)")
HEAD = re.compile(r"^( *)((?:unfoldable |abbrev |pub |mutual )*)(data |record )?(?:pub )?([^\s:(){}.,;]+)((?: *[({][^\n]*?)?) :(?: (.*))?$", re.M)
WORDS = {"let", "where", "module", "use", "open", "pub", "mod", "in"}
CAMEL = re.compile(r"^[a-z][a-z0-9]*[A-Z]")
# Document 01's and the original's own words, where a text speaks of these.
DOCUMENT = {"nBits", "nBitsExt", "xDivXSubXi", "xDivXSubWXi", "tmpExp", "idQ", "fixSegment"}
# Names that would fall together: a lemma about a definition of its name ends in _lem; other twins get names of their own.
TWINS = {w: w.replace("-", "_") + "_lem" for w in "body-in chosen_by closed_said fits_all in-n in_rows is_block leaf-in line_ok next_last raw_word runs_by too_many well-formed".split()}
TWINS |= {"nodeAt": "node_of_words", "readCount": "count_to_read", "qDim": "quotient_dim", "root-of": "expression_root", "nCm1": "n_cm1", "nCm2": "n_cm2", "inN": "in_n"}
# Goals and lemmas whose names the generated modules give.
MADE = re.compile(r"^(μ-|invariant-|decreases-|returns|loop-|element-|overflow_|Need-)|-(at|below|claims)$|-Inv-|-μ-")


def files(root, endings):
    for folder, dirs, names in os.walk(root):
        dirs[:] = sorted(d for d in dirs if d not in ("out", "target", ".git"))
        for name in sorted(names):
            if name.endswith(endings):
                yield os.path.join(folder, name)


def read(path):
    with open(path, encoding="utf-8") as f:
        return f.read()


def by_hand(path):
    return os.path.basename(path) in ("Proof.antt", "Invariants.antt", "Answers.antt")


def snake(word):
    word = re.sub(r"([a-z0-9])([A-Z])", r"\1_\2", word)
    return re.sub(r"([A-Z])([A-Z][a-z])", r"\1_\2", word).lower()


def gather():
    """What the lemma files and specs declare: the definitions (with fields and constructors), the lemmas, and the names of src/ and of goals."""
    definitions, lemmas, kept = set(), set(), set()
    for path in files("crates", (".antt",)):
        text = read(path)
        if by_hand(path):
            kept |= {m.group(4) for m in HEAD.finditer(text)}
            continue
        inside = None
        for m in HEAD.finditer(text):
            indent, words, kind, name = len(m.group(1)), m.group(2), m.group(3), m.group(4)
            if name in WORDS:
                continue
            if kind:
                inside = indent
                definitions.add(name)
            elif inside is not None and indent > inside:
                definitions.add(name)
            else:
                inside = None
                (definitions if "abbrev" in words or "unfoldable" in words else lemmas).add(name)
        for m in re.finditer(r"(?m)^\s*\| ([^\s:(){}.,;]+)\s*:", text):
            definitions.add(m.group(1))
    sources = set()
    for path in files("crates", (".rt",)):
        sources |= set(re.findall(r"\b(?:fn|struct|enum|const|mod)\s+(\w+)", read(path)))
    return definitions, lemmas - definitions, kept, sources


def bound(text):
    """What a clause of a .rt file can mean by a word: what ghost lines bring in, and parameters, which hide it. Functions stand apart."""
    ghost = " ".join(re.findall(r"(?m)^ghost use (.*);$", text))
    parameters = " ".join(re.findall(r"\bfn \w+(?:<[^(]*>)?\(([^)]*)\)", text))
    return set(SPLIT.split(ghost)) | set(re.findall(r"\b(\w+): ", parameters))


def alone(text):
    """The words of an .antt file that are no projection of a value and no path of a kept answer."""
    text = re.sub(r"--.*", "", text)
    return set(SPLIT.split(re.sub(r"(?m)^(pub )?use .*$|[.@][\w'-]+", " ", text))) | set(SPLIT.split(" ".join(re.findall(r"(?m)^(?:pub )?use .*\{(.*)\}$", text))))


def spelling():
    definitions, lemmas, kept, sources = gather()
    called = {s.replace("_", "-") for s in sources}
    imported = set()
    for path in files("crates", (".antt", ".rt")):
        for m in re.finditer(r"(?m)^(?:pub |ghost )*use (?!Rattle\.(?!std\b))[\w.]+\.\{([^}]*)\}", read(path)):
            imported |= {w.strip().split(" as ")[0] for w in m.group(1).split(",")}
    all_names = definitions | lemmas
    names = {snake(n) if CAMEL.match(n) else n for n in all_names | sources | imported}
    table = {}
    for name in sorted(all_names):
        if name in imported or name in kept or MADE.search(name) or name.startswith("◌") or name in called or name[0].isupper():
            continue
        parts = [snake(p) if CAMEL.match(p) else p for p in name.split("-")]
        if name in definitions and parts[0]:
            new = "_".join(parts)
        else:
            new = parts[0]
            for left, right in zip(parts, parts[1:]):
                new += ("-" if left in names and right in names or not left or not right or not re.match(r"\w", right) else "_") + right
        if new != name:
            table[name] = new
    # A local name in camel case goes along wherever it stands.
    for path in files("crates", (".antt",)):
        for word in SPLIT.split(read(path)):
            if CAMEL.match(word) and word not in table and word not in imported and "-" not in word and re.fullmatch(r"[\w'₀-₉]+", word):
                table[word] = snake(word)
    table |= TWINS
    together = set()
    for path in files("crates", (".antt", ".rt")):
        here = bound(read(path)) if path.endswith(".rt") else alone(read(path))
        spelled = collections.Counter(table.get(w, w) for w in here)
        together |= {w for w in here if w in table and w not in TWINS and spelled[table[w]] > 1}
    return {n: to for n, to in table.items() if n not in together}, {n: table[n] for n in together}


def turn(text, table):
    return "".join(table.get(w, w) for w in SPLIT.split(text))


def turn_source(text, table):
    """A .rt file: its ghost lines and clauses, and no comment or string."""
    lines, depth, clause = [], 0, False
    for line in text.split("\n"):
        bare = line.strip()
        starts = re.match(r"(ghost\b|requires\b|ensures\b|decreases\b)", bare)
        if clause or starts and not bare.startswith("//"):
            code, sep, note = line.partition(" //")
            line = turn(code, table) + sep + note
            depth = (depth if clause else 0) + code.count("{") - code.count("}")
            clause = depth > 0
        lines.append(line)
    return "\n".join(lines)


def turn_page(text, table):
    words = {k: v for k, v in table.items() if k not in DOCUMENT}
    return re.sub(r"`[^`\n]+`", lambda m: turn(m.group(0), words), text)


def main():
    table, together = spelling()
    if "--say" in sys.argv:
        for old, new in sorted(table.items()):
            print(old, new)
        for old, new in sorted(together.items()):
            print("stays:", old, new)
        return
    for path in list(files("crates", (".antt", ".rt", ".edit", ".txt"))) + list(files(".", (".md",))):
        old = read(path)
        if path.endswith(".md"):
            new = turn_page(old, table)
        elif path.endswith(".rt"):
            new = turn_source(old, table)
        elif path.endswith(".edit"):
            source = re.search(r"(?m)^file: .*\.rt$", old)
            new = old if source else turn(old, table)
        elif path.endswith(".txt") and "/answers/" not in path:
            continue
        else:
            new = turn(old, table)
        if new != old:
            with open(path, "w", encoding="utf-8") as f:
                f.write(new)
    print(f"{len(table)} names respelled, {len(together)} stay, since they would fall together with others")


if __name__ == "__main__":
    main()

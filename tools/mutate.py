#!/usr/bin/env python3
"""Try wrong programs: each must be refused.

    tools/mutate.py [--stored | --seed N --edits N] [--crates a,b,..] [--but a,b,..] [--jobs N] [--minutes N] [--log FILE]

With --stored the edits that stand in crates/NAME/edits/*.edit (the form is that of must-fail/, which the gate tries); else small edits
of crates/NAME/src picked at random, the same for the same seed: a constant changed, a test negated, an operator or two operands
swapped, a number off by one, a call dropped. One at a time they are applied to a copy of the crates under target/mutate/, and `rt check`
checks the crate there; the edits of a crate follow each other, and so many crates are at work at a time. An edit is
  refused     the crate is no longer proved
  unwritable  the compiler does not take it as a program: it is no wrong program
  SURVIVED    it is still proved: a contract is too weak, or the edit changes nothing that a caller can see
  same        it survived, and tools/mutate_same.txt says why it changes nothing
  untried     the minutes were over before its turn
A line for each edit goes to standard output as it is tried, then the table by crate. The status is 1 where one SURVIVED."""
import argparse
import collections
import concurrent.futures
import glob
import os
import random
import re
import shutil
import subprocess
import sys
import time

ROOT = os.path.dirname(os.path.dirname(os.path.abspath(__file__)))
COPIES = os.path.join(ROOT, "target", "mutate")
SAME = os.path.join(ROOT, "tools", "mutate_same.txt")
VERDICTS = ("refused", "same", "SURVIVED", "unwritable", "untried")

SWAPS = [("<=", "<"), (" < ", " <= "), (" == ", " != "), (" + ", " - "), (" - ", " + "), (" * ", " + "), (" / ", " * "), ("true", "false"), ("false", "true")]
NO_CODE = re.compile(r"(//|use |ghost |pub use |mod |pub mod |requires |ensures |invariant |decreases |#\[)")
DECLARED = re.compile(r"\s*(pub )?(const|fn|struct|enum|extern)\b|\s*\w+: [&\[\w]|.*->")
CONSTANT = re.compile(r"^(\s*(?:pub )?const \w+: \w+ = )(\d+)(;.*)$")
TEST = re.compile(r"^(\s*(?:\} else )?if )((?!let ).+)( \{)$")
CALL = re.compile(r"^\s*\w[\w:]*\([^{}]*\);$")
NUMBER = re.compile(r"(?<![\w.])(\d+)(?![\w.])")
PAIR = re.compile(r"(?<=[(\s])(\w+), (\w+)(?=[,)])")

# files: the edited files of the crate, by their paths below it
Edit = collections.namedtuple("Edit", "crate label files")


def changed_lines(line):
    """The edits of one line of code: what kind, and the line after it."""
    constant = CONSTANT.match(line)
    if constant:
        yield "constant", f"{constant[1]}{int(constant[2]) + 1}{constant[3]}"
    if DECLARED.match(line):
        return
    test = TEST.match(line)
    if test:
        yield "test negated", f"{test[1]}!({test[2]}){test[3]}"
    if CALL.match(line):
        yield "call dropped", ""
    for old, new in SWAPS:
        if old in line:
            yield "operator", line.replace(old, new, 1)
    number = NUMBER.search(line)
    if number:
        yield "number", f"{line[: number.start()]}{int(number[1]) + 1}{line[number.end() :]}"
    pair = PAIR.search(line)
    if pair and pair[1] != pair[2]:
        yield "operands swapped", f"{line[: pair.start()]}{pair[2]}, {pair[1]}{line[pair.end() :]}"


def read(path):
    with open(path) as f:
        return f.read()


def listed():
    return [line.split(":")[0].split()[0] for line in read(os.path.join(ROOT, "crates.txt")).split("\n") if ":" in line.split("#")[0]]


def small_edits(crate):
    folder = os.path.join(ROOT, "crates", crate)
    for path in sorted(glob.glob(os.path.join(folder, "src", "**", "*.rt"), recursive=True)):
        lines, file = read(path).split("\n"), os.path.relpath(path, folder)
        for i, line in enumerate(lines):
            if not line.strip() or NO_CODE.match(line.strip()):
                continue
            for kind, new in changed_lines(line):
                text = "\n".join(lines[:i] + [new] + lines[i + 1 :])
                yield Edit(crate, f"{file} {kind}: {line.strip()} => {new.strip() or '(nothing)'}", {file: text})


def stored_edits(crate):
    folder = os.path.join(ROOT, "crates", crate)
    for path in sorted(glob.glob(os.path.join(folder, "edits", "*.edit"))):
        files, file, old = {}, None, None
        for line in read(path).split("\n"):
            word, _, rest = line.partition(": ")
            if word == "file":
                file = rest
            elif word == "old":
                old = rest
            elif line.startswith("new:"):
                text = files.get(file) or read(os.path.join(folder, file))
                if text.count(old) != 1:
                    sys.exit(f"{path}: its text stands {text.count(old)} times in {file}: {old}")
                files[file] = text.replace(old, rest)
        yield Edit(crate, os.path.basename(path)[: -len(".edit")], files)


def made_by_rt(folder, names):
    """The folder `out` of a crate, and no folder of that name among its proofs."""
    return {"out"} if os.path.dirname(folder) == os.path.join(ROOT, "crates") else set()


def make_copy(crate):
    """A tree with crates of its own; its checks begin with what those of other copies on this machine kept."""
    copy = os.path.join(COPIES, crate)
    shutil.rmtree(copy, ignore_errors=True)
    os.makedirs(copy)
    shutil.copytree(os.path.join(ROOT, "crates"), os.path.join(copy, "crates"), ignore=made_by_rt)
    shutil.copy(os.path.join(ROOT, "crates.txt"), copy)
    return copy


def write_files(copy, crate, files):
    for file, text in files.items():
        with open(os.path.join(copy, "crates", crate, file), "w") as f:
            f.write(text)


def check(copy, crate):
    return subprocess.run(["rt", "check"], cwd=os.path.join(copy, "crates", crate), stdout=subprocess.PIPE, stderr=subprocess.STDOUT, text=True)


def attempt(copy, edit):
    before = {file: read(os.path.join(copy, "crates", edit.crate, file)) for file in edit.files}
    write_files(copy, edit.crate, edit.files)
    ran = check(copy, edit.crate)
    write_files(copy, edit.crate, before)
    if ran.returncode == 0:
        return "SURVIVED", ran.stdout
    return ("refused" if "logic=not-proved" in ran.stdout else "unwritable"), ran.stdout


def try_crate(crate, edits, same, end, log):
    """How many of a crate's edits had each verdict."""
    counts = collections.Counter()
    if time.time() < end:
        copy = make_copy(crate)
        if check(copy, crate).returncode != 0:
            sys.exit(f"{crate} is not proved before any edit")
    for edit in edits:
        if end <= time.time():
            counts["untried"] += 1
            continue
        verdict, said = attempt(copy, edit)
        if verdict == "SURVIVED" and f"{crate} {edit.label}" in same:
            verdict = "same"
        counts[verdict] += 1
        print(f"{verdict:11}{crate} {edit.label}", flush=True)
        log.write(f"== {verdict} {crate} {edit.label}\n{said}\n")
        log.flush()
    shutil.rmtree(os.path.join(COPIES, crate), ignore_errors=True)
    return counts


def try_all(edits, jobs, end, log):
    same = {line.rstrip("\n") for line in open(SAME) if not line.startswith("#")} if os.path.exists(SAME) else set()
    by_crate = collections.defaultdict(list)
    for edit in edits:
        by_crate[edit.crate].append(edit)
    with concurrent.futures.ThreadPoolExecutor(jobs) as pool:
        tried = {crate: pool.submit(try_crate, crate, of_crate, same, end, log) for crate, of_crate in by_crate.items()}
    return {crate: counts.result() for crate, counts in tried.items()}


def show(table):
    total = sum(table.values(), collections.Counter())
    print("\n" + "crate".ljust(22) + "".join(v.rjust(12) for v in VERDICTS))
    for crate, counts in sorted(table.items()) + [("all", total)]:
        print(crate.ljust(22) + "".join(str(counts[v]).rjust(12) for v in VERDICTS))
    return total["SURVIVED"]


def main():
    parser = argparse.ArgumentParser(description=__doc__, formatter_class=argparse.RawDescriptionHelpFormatter)
    parser.add_argument("--stored", action="store_true", help="the edits that stand in crates/NAME/edits")
    parser.add_argument("--seed", type=int, default=1)
    parser.add_argument("--edits", type=int, default=300, help="how many small edits")
    parser.add_argument("--crates", default="", help="only these, with commas")
    parser.add_argument("--but", default="", help="none of these, with commas")
    parser.add_argument("--jobs", type=int, default=os.cpu_count(), help="how many crates at a time")
    parser.add_argument("--minutes", type=float, default=float("inf"), help="no edit is begun after so many")
    parser.add_argument("--log", default=os.devnull, help="what the checks say")
    options = parser.parse_args()
    left_out = options.but.split(",")
    crates = [crate for crate in (options.crates.split(",") if options.crates else listed()) if crate not in left_out]
    edits = [edit for crate in crates for edit in (stored_edits if options.stored else small_edits)(crate)]
    if not options.stored:
        random.Random(options.seed).shuffle(edits)
        edits = edits[: options.edits]
    with open(options.log, "w") as log:
        survived = show(try_all(edits, options.jobs, time.time() + 60 * options.minutes, log))
    sys.exit(1 if survived else 0)


if __name__ == "__main__":
    main()

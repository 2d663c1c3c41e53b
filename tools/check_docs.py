#!/usr/bin/env python3
"""Hold the documents to the tree.

    tools/check_docs.py [--write]

  - the definition files of docs/PROMISES.md stand where it says, with the lines that it says, and their sum is what it says (--write puts
    the numbers right);
  - every crate of crates.txt stands in README.md, in the picture and in the table of crates;
  - every link of README.md and docs/*.md leads to a file.
What is wrong is printed, and the status is then 1."""
import glob
import os
import re
import sys

ROOT = os.path.dirname(os.path.dirname(os.path.abspath(__file__)))
PROMISES = "docs/PROMISES.md"
BELIEVED = "## Which text must be believed"
SUM = re.compile(r"These (\d+) files, ([\d,]+) lines in all")
FILE = re.compile(r"`(\w+)` (\d+)")
LINK = re.compile(r"\]\(([^)#:]+)(?:#[^)]*)?\)")


def read(path):
    with open(os.path.join(ROOT, path)) as f:
        return f.read()


def lines_of(crate, part, name):
    path = f"crates/{crate}/{part}/{name}.antt"
    return read(path).count("\n") if os.path.exists(os.path.join(ROOT, path)) else None


def believed(text):
    """The places in a table's row where a definition file's lines stand: the crate, its part, the file, the number and where it is."""
    for group in re.finditer(r"`(\w+)/(specs|proofs)/(\w+)` (\d+)", text):
        yield group[1], group[2], group[3], int(group[4]), group.span(4)
    for group in re.finditer(r"`(\w+)/(specs|proofs)`: ((?:`\w+` \d+(?:, )?)+)", text):
        for file in FILE.finditer(group[3]):
            start = group.start(3) + file.start(2)
            yield group[1], group[2], file[1], int(file[2]), (start, start + len(file[2]))


def put_right(text):
    """The text with the numbers of the tree, and what was wrong."""
    at = text.index(BELIEVED)
    end = text.index("\n## ", at + 1)
    section, wrong, total, files = text[at:end], [], 0, 0
    for crate, part, name, said, (start, stop) in sorted(believed(section), key=lambda found: -found[4][0]):
        files += 1
        lines = lines_of(crate, part, name)
        if lines is None:
            wrong.append(f"{PROMISES}: there is no crates/{crate}/{part}/{name}.antt")
            continue
        total += lines
        if lines != said:
            wrong.append(f"{PROMISES}: {crate}/{part}/{name} has {lines} lines, and not {said}")
            section = section[:start] + str(lines) + section[stop:]
    stated = SUM.search(section)
    if (int(stated[1]), int(stated[2].replace(",", ""))) != (files, total):
        wrong.append(f"{PROMISES}: they are {files} files with {total:,} lines")
        section = SUM.sub(f"These {files} files, {total:,} lines in all", section)
    return text[:at] + section + text[end:], wrong


def listed():
    return [line.split(":")[0].split()[0] for line in read("crates.txt").split("\n") if ":" in line.split("#")[0]]


def crates_wrong():
    parts = read("README.md").split("\n## ")
    section = next(part for part in parts if part.startswith("The crates"))
    picture, table = section.split("```")[1], section.split("```")[2]
    for crate in listed():
        if not re.search(rf"\b{crate}\b", picture):
            yield f"README.md: the picture of the crates has no {crate}"
        if f"`{crate}`" not in table:
            yield f"README.md: the table of the crates has no {crate}"


def links_wrong():
    for path in ["README.md", "host-rs/README.md"] + sorted(os.path.relpath(p, ROOT) for p in glob.glob(os.path.join(ROOT, "docs", "*.md"))):
        if not os.path.exists(os.path.join(ROOT, path)):
            continue
        for link in LINK.findall(read(path)):
            if not os.path.exists(os.path.join(ROOT, os.path.dirname(path), link)):
                yield f"{path}: its link to {link} leads to no file"


def main():
    text, wrong = put_right(read(PROMISES))
    if "--write" in sys.argv[1:]:
        with open(os.path.join(ROOT, PROMISES), "w") as f:
            f.write(text)
    wrong += list(crates_wrong()) + list(links_wrong())
    print("\n".join(wrong) if wrong else "the documents are true to the tree")
    sys.exit(1 if wrong else 0)


if __name__ == "__main__":
    main()

#!/usr/bin/env python3
"""How long the check of each crate takes, as a table, the slowest first.

    tools/check_times.py FILE COMMAND..

Runs COMMAND, which proves the crates of this tree, as `rt ci --anew` or `rt all check`, and writes to FILE the seconds of processor time that each crate's
longest prover took, however many were at work at a time. The status is COMMAND's; where a crate was not proved by it, FILE says so."""
import os
import subprocess
import sys
import time

ROOT = os.path.dirname(os.path.dirname(os.path.abspath(__file__)))
EVERY = 0.25
TICKS = os.sysconf("SC_CLK_TCK")


def crate_of(pid):
    """The crate that a process proves, if it does."""
    with open(f"/proc/{pid}/cmdline") as f:
        words = f.read().split("\0")
    if os.path.basename(words[0]) != "rattle" or "--crate-name" not in words:
        return None
    return words[words.index("--crate-name") + 1]


def seconds_of(pid):
    with open(f"/proc/{pid}/stat") as f:
        fields = f.read().rpartition(")")[2].split()
    user, system = int(fields[11]), int(fields[12])
    return (user + system) / TICKS


def look(found):
    for pid in filter(str.isdigit, os.listdir("/proc")):
        try:
            crate = crate_of(pid)
            if crate:
                found[crate] = max(found.get(crate, 0), seconds_of(pid))
        except (OSError, ValueError, IndexError):
            pass  # it has ended, or is none of ours to look at


def listed():
    with open(os.path.join(ROOT, "crates.txt")) as f:
        return [line.split(":")[0].split()[0] for line in f if ":" in line.split("#")[0]]


def table(found):
    rows = sorted(((found[name], name) for name in listed() if name in found), key=lambda row: (-round(row[0]), row[1]))
    yield "| Crate | Seconds |\n|---|---|"
    for seconds, name in rows:
        yield f"| `{name}` | {seconds:.0f} |"
    yield f"| all {len(rows)} | {sum(seconds for seconds, _ in rows):.0f} |"
    for name in listed():
        if name not in found:
            yield f"\nNot proved: {name}"


def main():
    if len(sys.argv) < 3:
        sys.exit(__doc__)
    found = {}
    command = subprocess.Popen(sys.argv[2:], cwd=ROOT)
    while command.poll() is None:
        look(found)
        time.sleep(EVERY)
    with open(sys.argv[1], "w") as f:
        f.write("\n".join(table(found)) + "\n")
    sys.exit(command.returncode)


if __name__ == "__main__":
    main()

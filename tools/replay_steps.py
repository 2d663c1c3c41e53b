#!/usr/bin/env python3
"""Replay a file of stored runs, as vectors/steps.txt, on a program: each input on standard input, and what it prints compared byte for byte.

usage: tools/replay_steps.py PROGRAM FILE

The head of the file says how runs are written. It ends with status 1 where an output differs, or where the program does not
end by itself with status 0. Nothing but Python's own library is needed.
"""
import os
import re
import subprocess
import sys
from concurrent.futures import ThreadPoolExecutor

PATIENCE = 60
AT_A_TIME = 2
HEXADECIMAL = re.compile(r"[0-9a-f]+")
ESCAPED = re.compile(r"(?:[0-9A-Za-z]|\\n|\\x[0-9a-f]{2})*")
OUTPUTS = ("output original", "output document", "output stored")


class Malformed(Exception):
    pass


def filled(template, number):
    def shifted(match):
        value = number + int(match[1] or "0")
        if not 0 <= value <= 0xFFFF:
            raise Malformed(f"{template} leaves four digits at {number}")
        return f"{value:04x}"

    line = re.sub(r"\{([+-][0-9]+)?\}", shifted, template)
    if not HEXADECIMAL.fullmatch(line):
        raise Malformed(f"{template} gives no digits")
    return line


def expanded(piece):
    """The bytes that one line of an input or output stands for."""
    if piece.startswith("|"):
        return (piece[2:] + "\n").encode()
    if piece.startswith("text "):
        escaped = piece[len("text "):]
        if not ESCAPED.fullmatch(escaped):
            raise Malformed(f"{piece} is not letters, digits, \\n and \\xHH")
        return escaped.encode().decode("unicode_escape").encode("latin-1")
    words = piece.split(" ")
    if words[0] == "each" and len(words) == 4:
        numbers = range(int(words[1]), int(words[2]) + 1)
        return "".join(filled(words[3], n) + "\n" for n in numbers).encode()
    if HEXADECIMAL.fullmatch(piece):
        return piece.encode() + b"\n"
    raise Malformed(f"digits, each, text or | come here, not {piece}")


def runs(text):
    """Name, input and output of each run."""
    found = {}
    name, data, output = None, b"", None
    for number, line in enumerate(text.split("\n"), 1):
        try:
            if not line or line.startswith("#"):
                continue
            if name is None:
                if not line.startswith("run ") or line[4:] in found:
                    raise Malformed(f"the name of a new run comes here, not {line}")
                name = line[4:]
            elif output is None and line in OUTPUTS:
                output = b""
            elif output is not None and line == "end":
                found[name] = (data, output)
                name, data, output = None, b"", None
            elif output is None:
                data += expanded(line)
            else:
                output += expanded(line)
        except (Malformed, ValueError) as fault:
            raise Malformed(f"line {number}: {fault}") from None
    if name is not None:
        raise Malformed(f"the run {name} has no end")
    if not found:
        raise Malformed("it has no runs")
    return found


def difference(expected, printed):
    wanted, given = expected.splitlines(keepends=True), printed.splitlines(keepends=True)
    at = next((n for n, (w, g) in enumerate(zip(wanted, given)) if w != g), min(len(wanted), len(given)))
    say = lambda lines: ascii(lines[at].decode("latin-1")) if at < len(lines) else "nothing"
    return f"line {at + 1}: expected {say(wanted)}, printed {say(given)}"


def asked(program, data, expected):
    """What is wrong with the program's answer, if anything."""
    try:
        done = subprocess.run([program], input=data, stdout=subprocess.PIPE, stderr=subprocess.DEVNULL, timeout=PATIENCE)
    except subprocess.TimeoutExpired:
        return f"no answer in {PATIENCE} s"
    if done.returncode != 0:
        return f"the program ended with {done.returncode}"
    return None if done.stdout == expected else difference(expected, done.stdout)


def main():
    if len(sys.argv) != 3:
        sys.exit(__doc__)
    program, path = sys.argv[1:]
    # A name without a slash would be looked for on the PATH.
    program = program if "/" in program else f"./{program}"
    try:
        with open(path, encoding="ascii", newline="") as file:
            stored = runs(file.read())
        with ThreadPoolExecutor(AT_A_TIME) as pool:
            faults = pool.map(lambda run: asked(program, *run), stored.values())
            wrong = {name: fault for name, fault in zip(stored, faults) if fault}
    except (OSError, UnicodeDecodeError, Malformed) as fault:
        sys.exit(f"{path}, {fault}" if isinstance(fault, Malformed) else str(fault))
    for name, fault in wrong.items():
        print(f"{name}: {fault}", file=sys.stderr)
    print(f"{os.path.basename(program)}: {len(stored)} runs, {len(stored) - len(wrong)} equal")
    sys.exit(1 if wrong else 0)


if __name__ == "__main__":
    main()

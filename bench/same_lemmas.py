#!/usr/bin/env python3
"""Lists the lemmas of crates/*/proofs that state the same, but for the names of what they bind. It runs no program.

It is called at the top of the repository, without words. It compares the written types alone: two definitions of one name make two
statements look alike, and goals (`goal.X`) are left out. What it lists may stand in crates of which neither stands on the other.
It prints each such type, and below it the file, the line and the name of each lemma. It takes some seconds.
"""

import collections
import glob
import re

HEAD = re.compile(r"(?:pub |abbrev |unfoldable )*([^\s:]+) : (.+)")
BINDER = re.compile(r"[({]([^(){}:]+) : ")


def statements(file):
    """Yields the name, the line and the written type of each lemma of a file."""
    with open(file, encoding="utf-8") as it:
        lines = it.read().split("\n")
    for number, line in enumerate(lines):
        head = None if line.startswith((" ", "--", "use ")) else HEAD.fullmatch(line)
        if head:
            parts = [head[2]]
            for further in lines[number + 1 :]:
                if not further.startswith("    "):
                    break
                parts.append(further.strip())
            yield head[1], number + 1, " ".join(parts)


def evened(written):
    """Returns the type with its bound names numbered in their order."""
    names = {}
    for binder in BINDER.finditer(written):
        for name in binder[1].split():
            names.setdefault(name, f"_{len(names)}")
    return "".join(names.get(it, it) for it in re.split(r"([\s(){}.,λ]+)", written))


def main():
    found = collections.defaultdict(list)
    for file in sorted(glob.glob("crates/*/proofs/**/*.antt", recursive=True)):
        for name, line, written in statements(file):
            if "→" in written and len(written) > 25 and not written.startswith("goal."):
                found[evened(written)].append(f"{file}:{line}: {name}")
    for written, places in found.items():
        if len(places) > 1:
            print(written, *places, sep="\n    ")


main()

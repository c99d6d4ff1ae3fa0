#!/usr/bin/env python3
"""Counts the lines of each crate, as docs/EVIDENCE.md has them.

There are no words. It prints a row of a table for each crate, in the order of crates.txt, and one for all: the lines of src, of them those
of clauses (`requires` and `ensures`), the lines of specs and of proofs, and how many wrong bodies are in must-fail. It takes a second.
"""

import os
import re

from program import TOP


def lines_of(folder, ending):
    """The lines of each file of a folder that ends so."""
    for where, _, names in os.walk(folder):
        for name in sorted(names):
            if name.endswith(ending):
                with open(os.path.join(where, name), encoding="utf-8") as file:
                    yield file.read().splitlines()


def clause_lines(lines):
    """How many of these lines are of clauses: from `requires` or `ensures` on up to where its braces are closed."""
    count = depth = 0
    for line in lines:
        if depth > 0 or re.match(r"\s*(requires|ensures)\b", line):
            count += 1
            depth += line.count("{") - line.count("}")
    return count


def row_of(crate):
    folder = os.path.join(TOP, "crates", crate)
    sources = list(lines_of(os.path.join(folder, "src"), ".rt"))
    edits = os.path.join(folder, "must-fail")
    return (
        sum(map(len, sources)),
        sum(map(clause_lines, sources)),
        sum(map(len, lines_of(os.path.join(folder, "specs"), ".antt"))),
        sum(map(len, lines_of(os.path.join(folder, "proofs"), ".antt"))),
        len(os.listdir(edits)) if os.path.isdir(edits) else 0,
    )


def main():
    with open(os.path.join(TOP, "crates.txt"), encoding="utf-8") as file:
        named = [line.split("#")[0].partition(":")[0].split()[:1] for line in file]
    rows = [(name[0], row_of(name[0])) for name in named if name]
    rows.append(("all", tuple(map(sum, zip(*(row for _, row in rows))))))
    for name, row in rows:
        print(f"| {name} | {' | '.join(f'{number:,}' for number in row)} |")


if __name__ == "__main__":
    main()

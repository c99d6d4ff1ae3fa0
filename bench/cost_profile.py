#!/usr/bin/env python3
"""Where the instructions and the cache misses of an operation go, function by function, by callgrind.

The operations are a lookup, an insert into a leaf that has room, a delete from a leaf that stays large enough, and an insert that splits
its leaf; and by the form `fast` a lookup whose slot has no guess, and a lookup, an insert and a delete whose guess is right. The figures of each are the difference of two runs of the program, one with the operations and one without them, by their
number. So reading the line and printing the reply are in them, and of a change its entry and its pair in the map, too. Misses are those
of a simulated first-level data cache of 32 KB.
Words: the number of leaves (500 if none), and how many functions are shown of each (24). Each has 18 records, or 35 before a split, and a key is the 8 bytes of a number. From the root
to a leaf there are two pages with up to 34 leaves, three with up to 646, and four with more.
It prints for each operation the sums, and then the functions that take most: instructions, misses, name. It takes about two minutes.
"""

import re
import subprocess
import sys
import tempfile

from callgrind import COMMAND
from keys import numbered
from program import PROGRAM, built

SPACE = "space 4096 2000000"
LEAF = 18_000


def half_full(leaves):
    """Ascending inserts leave 18 records in each leaf."""
    return [f"insert {numbered(key * 1000)} {key}" for key in range(18 * leaves + 18)]


def full(leaves):
    return half_full(leaves) + [f"insert {numbered(leaf * LEAF + more)} {more}" for more in range(1, 18) for leaf in range(leaves)]


def kinds(leaves):
    """Of each operation, its form, the script before it and its own lines: one for each leaf."""
    lookups = [f"get {numbered(leaf * LEAF + 5000)}" for leaf in range(leaves)]
    inserts = [f"insert {numbered(leaf * LEAF + 500)} 1" for leaf in range(leaves)]
    deletes = [f"delete {numbered(leaf * LEAF + 5000)}" for leaf in range(leaves)]
    yield "lookup", "run", half_full(leaves), lookups
    yield "insert with room", "run", half_full(leaves), inserts
    yield "delete", "run", half_full(leaves), deletes
    yield "insert that splits", "run", full(leaves), inserts
    # A lookup leaves the guess of its key's slot.
    guessed = half_full(leaves) + lookups
    yield "lookup without a guess", "fast", half_full(leaves), lookups
    yield "lookup by a right guess", "fast", guessed, lookups
    yield "insert by a right guess", "fast", half_full(leaves) + [line.replace("insert", "get").removesuffix(" 1") for line in inserts], inserts
    yield "delete by a right guess", "fast", guessed, deletes


def profile(form, lines):
    """Instructions and first-level misses by function."""
    with tempfile.NamedTemporaryFile() as given, tempfile.NamedTemporaryFile() as out:
        given.write("".join(line + "\n" for line in [SPACE, *lines]).encode())
        given.flush()
        words = [*COMMAND, "--cache-sim=yes", "--D1=32768,8,64", f"--callgrind-out-file={out.name}", PROGRAM, form]
        with open(given.name) as source:
            subprocess.run(words, stdin=source, stdout=subprocess.DEVNULL, stderr=subprocess.DEVNULL, check=True)
        words = ["callgrind_annotate", "--threshold=100", "--show=Ir,D1mr,D1mw", "--show-percs=no", out.name]
        told = subprocess.run(words, capture_output=True, text=True, check=True).stdout
    found = {}
    for line in told.splitlines():
        row = re.match(r"\s*([\d,.]+)\s+([\d,.]+)\s+([\d,.]+)\s+\S+?:([^\s\[]+)", line)
        if row:
            count, reads, writes = (0 if text == "." else int(text.replace(",", "")) for text in row.groups()[:3])
            name = re.sub(r"::<#\w+>", "", row.group(4))
            before = found.get(name, (0, 0))
            found[name] = (before[0] + count, before[1] + reads + writes)
    return found


def main():
    leaves = int(sys.argv[1]) if len(sys.argv) > 1 else 500
    shown = int(sys.argv[2]) if len(sys.argv) > 2 else 24
    built()
    for kind, form, base, lines in kinds(leaves):
        bare, whole = profile(form, base), profile(form, base + lines)
        rows = []
        for name in set(bare) | set(whole):
            one, two = bare.get(name, (0, 0)), whole.get(name, (0, 0))
            rows.append(((two[0] - one[0]) / len(lines), (two[1] - one[1]) / len(lines), name))
        rows.sort(reverse=True)
        print(f"{kind}: {sum(row[0] for row in rows):.0f} instructions, {sum(row[1] for row in rows):.1f} misses", flush=True)
        for count, misses, name in rows[:shown]:
            print(f"{count:8.0f} {misses:6.1f}  {name}", flush=True)


if __name__ == "__main__":
    main()

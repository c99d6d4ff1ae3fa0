#!/usr/bin/env python3
"""How the cost of an operation grows with the tree, that of a replay with the log, and that of opening and closing with the space.

An operation's instructions are counted by callgrind: those of a script with the operations less those of the script without them, by
their number. So reading its line and printing its reply are in them. Its time is measured alike, over more of them, as the best of five
runs. A key is the 8 bytes of a number.
Words: the numbers of keys (1000 10000 60000 if none).
It prints a line for each number of keys and each operation, then nanoseconds for each entry of three replays, and the milliseconds that
a script of one lookup takes in spaces of some sizes. It takes some minutes.
"""

import random
import subprocess
import sys
import time

from callgrind import instructions
from keys import numbered
from program import PROGRAM, built
from tree_logs import log_of

SPACE = "space 4096 8000000\n"
FEW, MANY = 500, 40_000


def seconds(form, data, times=5):
    """The best of some runs."""
    best = None
    for _ in range(times):
        start = time.monotonic()
        subprocess.run([PROGRAM, form], input=data, stdout=subprocess.DEVNULL, check=True)
        took = time.monotonic() - start
        best = took if best is None else min(best, took)
    return best


def counted(data):
    """The instructions of a run of this script."""
    return instructions([PROGRAM, "run"], data)


def keys_of(count):
    keys = [key * 1_000_003 for key in range(2 * count)]
    random.Random(count).shuffle(keys)
    return keys[:count], keys[count:]


def load(keys):
    return [f"insert {numbered(key)} {key % 1000}" for key in keys]


def operations(kind, keys, others, count):
    dice = random.Random(7)
    if kind == "get":
        return [f"get {numbered(dice.choice(keys))}" for _ in range(count)]
    if kind == "scan":
        return [f"scan {numbered(low)} {numbered(low + 10_000_030)}" for low in (dice.choice(keys) for _ in range(count // 10))]
    if kind == "insert":
        return load(others[:count])
    if kind == "delete":
        return [f"delete {numbered(key)}" for key in keys[: min(count, len(keys) // 2)]]
    pairs = []
    for key in (dice.choice(others) for _ in range(count // 2)):
        pairs += [f"insert {numbered(key)} 1", f"delete {numbered(key)}"]
    return pairs


def text(*parts):
    return (SPACE + "".join(line + "\n" for part in parts for line in part)).encode()


def measure(count):
    keys, others = keys_of(count)
    base = load(keys)
    bare, bare_seconds = counted(text(base)), seconds("run", text(base))
    for kind in ("get", "scan", "insert", "delete", "insert and delete"):
        few, many = operations(kind, keys, others, FEW), operations(kind, keys, others, MANY)
        one = (counted(text(base, few)) - bare) / len(few)
        if kind in ("insert", "delete"):
            print(f"{count} keys, {kind}: {one:.0f} instructions", flush=True)
        else:
            took = (seconds("run", text(base, many)) - bare_seconds) / len(many)
            print(f"{count} keys, {kind}: {one:.0f} instructions, {took * 1e9:.0f} ns", flush=True)


def main():
    built()
    for count in [int(word) for word in sys.argv[1:]] or [1_000, 10_000, 60_000]:
        measure(count)
    empty = seconds("replay", log_of(0, 0))
    for count, changes in ((3_000, 7_000), (30_000, 70_000), (60_000, 240_000)):
        took = seconds("replay", log_of(count, changes)) - empty
        print(f"replay of {count + changes} entries: {took / (count + changes) * 1e9:.0f} ns an entry", flush=True)
    for pages, words in ((16, 8196), (4096, 8196), (4096, 1 << 20), (4096, 1 << 24)):
        took = seconds("run", f"space {pages} {words}\nget 1\n".encode(), 9)
        print(f"a space of {pages} pages and {words} log words: {took * 1e3:.1f} ms", flush=True)


if __name__ == "__main__":
    main()

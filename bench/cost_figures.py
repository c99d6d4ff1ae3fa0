#!/usr/bin/env python3
"""Times the program on large inputs: scripts, a million events, and log files. Nothing is judged.

The inputs are made here, from a fixed seed, in a folder that is removed at the end. Keys are the 8 bytes of a number, or a letter and
digits. None is over the program's limit of 67,108,864 bytes; the last one is just as long as that, and no log.
Word: by what the sizes are divided (1 if none).
It prints for each input the exit status, the seconds, the peak of resident memory, and how many bytes were read and written. It takes
some minutes, most of which the inputs take.
"""

import os
import random
import subprocess
import sys
import tempfile
import time

import keys
from program import PROGRAM, built
from tree_logs import Tree, log_of

LIMIT = 67_108_864


def ascending(count):
    for key in range(count):
        yield f"insert {keys.numbered(key * 9000000000000)} {key}\n"


def gets(inserts, count):
    for key in range(0, 2 * inserts, 2):
        yield f"insert k{key:06} {key}\n"
    for call in range(count):
        yield f"get k{call * 7919 % (2 * inserts):06}\n"


def mixed(count, sessions, most):
    dice = random.Random(57)
    for session in range(1, sessions + 1):
        yield f"session {session}\n"
        for _ in range(count // sessions):
            number, kind = dice.randrange(most), dice.randrange(10)
            key = keys.numbered(number)
            if kind < 4:
                yield f"insert {key} {dice.randrange(1000)}\n"
            elif kind < 7:
                yield f"delete {key}\n"
            elif kind < 9:
                yield f"get {key}\n"
            else:
                yield f"scan {key} {keys.numbered(number + 20)}\n"


def events(count):
    dice = random.Random(57)
    wishes = ("s", "sx", "x")
    for turn in range(count // 4):
        session, latch = turn % 64 + 1, dice.randrange(16)
        wish = wishes[dice.randrange(3)]
        yield f"{session} {wish} {latch} {5 - latch % 5}\n"
        yield f"{session} u{wish} {latch}\n"
        yield f"{session} look {latch}\n"
        yield f"{session} raise {latch}\n"


def tree_of(numbers):
    """The log file of inserts of the keys of these numbers in turn."""
    tree = Tree()
    for number in numbers:
        tree.insert(keys.of_number(number), number)
    return tree.file()


def rows(size):
    """Each input: what it is, its form, and its pieces. A size is that of the whole row, or a part of it."""
    million, inserts, changes, keyed = size(1_000_000), size(10_000), size(400_000), size(20_000)
    yield f"{million:,} ascending inserts", "run", ascending(million)
    yield f"{size(200_000):,} mixed commands of 4 sessions over {keyed:,} keys", "run", mixed(size(200_000), 4, keyed)
    yield f"{million:,} commands, {million - inserts:,} of them gets", "run", gets(inserts, million - inserts)
    yield f"{million:,} events of 64 sessions on 16 latches", "latch", events(million)
    yield f"a log of {keyed:,} inserts and {changes:,} changes of one key", "replay", [log_of(keyed, changes)]
    shuffled = random.Random(57).sample(range(10_000_000), size(60_000))
    yield f"a log of {len(shuffled):,} inserts in mixed order", "replay", [tree_of(shuffled)]
    yield f"{size(LIMIT):,} bytes of zeros", "replay", [bytes(size(LIMIT))]


def measure(name, form, given, taken):
    with open(given, "rb") as source, open(taken, "wb") as sink:
        start = time.monotonic()
        child = subprocess.Popen([PROGRAM, form], stdin=source, stdout=sink)
        _, status, usage = os.wait4(child.pid, 0)
        seconds = time.monotonic() - start
    print(
        f"{name}: status {os.waitstatus_to_exitcode(status)}, {seconds:.2f} s, "
        f"{usage.ru_maxrss / 1024:.0f} MB, {os.path.getsize(given) / 1e6:.1f} MB in, "
        f"{os.path.getsize(taken) / 1e6:.1f} MB out"
    )


def run(name, form, pieces, folder):
    """Makes the input, and measures in a process of its own: a child's peak counts what its parent held when it began."""
    given = os.path.join(folder, "input")
    with open(given, "wb") as file:
        file.writelines(piece if isinstance(piece, bytes) else piece.encode() for piece in pieces)
    if os.path.getsize(given) > LIMIT:
        sys.exit(f"{name}: {os.path.getsize(given)} bytes are over the program's limit")
    words = ["measure", name, form, given, os.path.join(folder, "output")]
    subprocess.run([sys.executable, os.path.abspath(__file__), *words], check=True)


def main():
    if sys.argv[1:2] == ["measure"]:
        measure(*sys.argv[2:])
        return
    by = int(sys.argv[1]) if len(sys.argv) > 1 else 1
    built()
    with tempfile.TemporaryDirectory() as folder:
        for name, form, pieces in rows(lambda whole: whole // by):
            run(name, form, pieces, folder)


if __name__ == "__main__":
    main()

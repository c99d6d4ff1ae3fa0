#!/usr/bin/env python3
"""Lets four threads take and give back two latches in every mode, and looks whether they ever hang.

The program is check_stress_main.txt beside this. It stands in no crate, since its calls are tried and not proved: `rt try` runs it over
a copy of the crates.
Words: how many seconds each run lasts (60 if none), how many runs (10), and how many of them at a time (1).
It prints for each run takings a second, how often a cell was reserved for a sleep, and how often a generation was raised. A run that
has not ended 30 seconds after its time hangs. Then, and where a latch is not free at the end or a cell is still reserved, the status is
1. Without words it takes ten minutes, and a little for each start; `check_stress.py 3 1` takes a few seconds more than a start.
"""

import re
import subprocess
import sys

import copied

LINE = re.compile(r"takings (\d+) sleeps (\d+) wakes (\d+) reserved (\d+) free (\w+)")
NEEDS = "ib_map ib_word ib_levels ib_core ib_layout ib_heap ib_page ib_logrec ib_rule ib_wait ib_latch".split()
LEFT_OUT = ("out", "must-fail")


def crate(seconds):
    """The crate of the program whose runs last so many seconds."""
    main = copied.text_of("bench", "check_stress_main.txt").replace("@SECONDS@", str(seconds))
    return copied.crate("ib_stress", NEEDS, {"src/main.rt": main}, LEFT_OUT)


def started(folder, seconds):
    """A run of the program, as a process."""
    words = ["rt", "try", "--steps", "1", "--seconds", str(seconds + 30)]
    return subprocess.Popen(words, cwd=folder, stdout=subprocess.PIPE, stderr=subprocess.STDOUT, text=True)


def is_right(output, seconds):
    """Whether a run ended as it must; prints what it tells."""
    found = LINE.search(output)
    if found is None:
        print("no end:", output[-2000:], flush=True)
        return False
    takings, sleeps, wakes, reserved, free = found.groups()
    print(f"{int(takings) // seconds} takings a second, {sleeps} sleeps, {wakes} wakes, {reserved} cells left, every latch free: {free}", flush=True)
    return reserved == "0" and free == "true"


def main():
    seconds, runs, beside = [int(word) for word in sys.argv[1:]] + [60, 10, 1][len(sys.argv) - 1 :]
    folder = crate(seconds)
    bad, left = 0, runs
    while left > 0:
        batch = [started(folder, seconds) for _ in range(min(beside, left))]
        left -= len(batch)
        for process in batch:
            bad += not is_right(process.communicate()[0], seconds)
    copied.remove(folder)
    return 1 if bad else 0


if __name__ == "__main__":
    sys.exit(main())

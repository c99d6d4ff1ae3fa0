#!/usr/bin/env python3
"""Makes random inserts and deletes by plan on one memory, and looks after each whether the memory is lawful and has what a map has.

The program is check_plans_main.txt beside this, with the changes of the crate ib_plan_tests, whose asserts it runs. It stands in no crate,
since its asserts are run and not proved: `rt try` runs it over a copy of the crates. Each change begins on pages that `check_tree`
finds lawful, and so does one after the last. After each change the content of the tree is compared with that of a plain map. Keys have
0 to 15 bytes, and many begin alike. At first four of five changes are inserts, then four of five are deletes, and so on.
Words: how many changes (4,000 if none), and in how many programs (1). These run beside each other, each on a memory of its own with
other numbers.
It prints for each program its changes, how often the root was raised and lifted, and how many keys are left. Where a program ends
otherwise, what it printed last is printed, and the status is 1. A change takes some 20 ms: 4,000 take about a minute and a half, and
raise the root twice and lift it once. The long one is `check_plans.py 100000`, 40 minutes, or `check_plans.py 100000 4`, 11 minutes on
four processors.
"""

import re
import subprocess
import sys

import copied

LINE = re.compile(r"changes \d+ raises \d+ lifts \d+ keys \d+")
TESTS = "ib_plan_tests"
TAKEN = ["src/beside.rt", "src/changes.rt", "src/pages.rt", "src/trial.rt", "specs/Lib.antt", "specs/Reads.antt"]
LEFT_OUT = ("out", "must-fail")
# Inserts and deletes change places after so many changes, or after half of all.
PHASE = 3000


def played(text):
    """A file of the tests as one of the program: a memory is checked where the next change begins, and not twice."""
    text = text.replace(TESTS, "ib_played").replace("        assert!(rt; check_tree(&self.memory, 1));\n", "")
    return text.replace("use ib_tree::{check_tree, content_of};", "use ib_tree::content_of;")


def crate(changes, seed):
    """The crate of the program that makes so many changes."""
    numbers = {"@CHANGES@": changes, "@PHASE@": max(1, min(PHASE, changes // 2)), "@SEED@": seed}
    main = copied.text_of("bench", "check_plans_main.txt")
    for mark, number in numbers.items():
        main = main.replace(mark, str(number))
    files = {name: played(copied.text_of("crates", TESTS, name)) for name in TAKEN}
    needs = copied.lines_of_crates()[TESTS].partition(":")[2].split()
    return copied.crate("ib_played", needs, files | {"src/main.rt": main}, LEFT_OUT)


def started(folder):
    """The program, as a process."""
    words = ["rt", "try", "--steps", "1", "--seconds", "36000"]
    return subprocess.Popen(words, cwd=folder, stdout=subprocess.PIPE, stderr=subprocess.STDOUT, text=True)


def main():
    changes, programs = [int(word) for word in sys.argv[1:]] + [4000, 1][len(sys.argv) - 1 :]
    folders = [crate(changes // programs, seed + 1) for seed in range(programs)]
    bad = 0
    for folder, process in [(folder, started(folder)) for folder in folders]:
        output = process.communicate()[0]
        found = LINE.search(output)
        bad += found is None
        print(found.group() if found else f"no end: {output[-2000:]}", flush=True)
        copied.remove(folder)
    return 1 if bad else 0


if __name__ == "__main__":
    sys.exit(main())

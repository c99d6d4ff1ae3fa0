#!/usr/bin/env python3
"""Runs each example of examples/, and compares what the program prints with what stands beside the example.

The example `sessions` may print many outputs: each is judged by judge.py. The example `race` may print two, and is run until both have
come. Word: how often `race` is run at most (10,000 if none).
It prints a line for each example, and how often each output of `race` came. The status is 1 where anything differs, and where one of
the two outputs did not come. It takes a few seconds where both come soon, and a minute where one does not come.
"""

import os
import sys
from collections import Counter

from judge import Wrong, judge
from program import TOP, answer, built

EXAMPLES = os.path.join(TOP, "examples")

# Each example's form, its input, what it prints and its status.
FIXED = (
    ("run", "first.script", "first.out", 0),
    ("run", "refused.script", "refused.out", 2),
    ("run", "tree.script", "tree.out", 0),
    ("pair", "pair.script", "pair.out", 0),
    ("latch", "latch.script", "latch.out", 0),
    ("replay", "insert.log", "insert.out", 0),
    ("upgrade", "old.log", "old.out", 0),
)


def contents(name):
    with open(os.path.join(EXAMPLES, name), "rb") as it:
        return it.read()


def check_fixed():
    well = True
    for form, given, printed, status in FIXED:
        same = answer([form], contents(given)) == (status, contents(printed))
        print(f"{given}: {'as it stands' if same else 'DIFFERS'}")
        well = well and same
    return well


def check_sessions():
    given = contents("sessions.script").decode()
    try:
        judge(given, contents("sessions.out").decode())
        judge(given, answer(["run"], given.encode())[1].decode())
    except Wrong as wrong:
        print(f"sessions.script: {wrong}")
        return False
    print("sessions.script: legal")
    return True


def check_race(most):
    given = contents("race.script")
    outputs = [contents("race.1.out"), contents("race.2.out")]
    came = Counter()
    while sum(came.values()) < most and len(came) < 2:
        status, text = answer(["run"], given)
        if status != 0 or text not in outputs:
            print("race.script: neither of its outputs")
            return False
        came[text] += 1
    first, second = (came[text] for text in outputs)
    print(f"race.script: the first output {first} times, the second {second} times{'' if first and second else ': ONE DID NOT COME'}")
    return first > 0 and second > 0


def main():
    most = int(sys.argv[1]) if len(sys.argv) > 1 else 10_000
    built()
    return 0 if all([check_fixed(), check_sessions(), check_race(most)]) else 1


if __name__ == "__main__":
    sys.exit(main())

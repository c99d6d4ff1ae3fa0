#!/usr/bin/env python3
"""Runs scripts of several sessions, each a thread of its own, and judges every reply of every run by judge.py.

The scripts are made here, of eight kinds in turn: on keys that all sessions share, on keys of a session's own, on few keys, in small
spaces and with small logs that fill up, with scans over leaves that change, with trees that grow and then are emptied, and with trees
of a few leaves that come and go, so that guesses are often stale. They have 2 to 64 sessions. Keys have 0 to 15 bytes, and many begin alike (keys.py).
Words: how many commands in all (100,000 if none), a seed (57), how many commands a script has (20,000), and the form that runs them:
`run`, `fast`, or `both` (if none), each in turn for a round of the kinds.
It prints how many runs of each kind it judged. At the first difference it prints what differs and the folder with the script and the
output, and ends with the status 1. A run that does not end in five minutes hangs, and is told in the same way. It takes some five
seconds for 100,000 commands.
"""

import os
import random
import subprocess
import sys
import tempfile
import time
from collections import Counter
from functools import cache

import keys
from judge import Wrong, judge
from program import answer, built

# How many keys the scripts of a kind have; the sessions of `own` have 2,000 each.
KEYS = {"shared": 4_000, "own": 128_000, "hot": 60, "small space": 700, "small log": 4_000, "scans": 1_500, "falling": 4_000, "waves": 240}
KINDS = tuple(KEYS)
FORMS = {"run": ("run",), "fast": ("fast",), "both": ("run", "fast")}


@cache
def in_order(kind):
    """The keys of a kind of script, in their order."""
    return sorted(keys.nth(number) for number in range(KEYS[kind]))


def place_of(kind, dice, session):
    """Where the key of a command stands in that order; of `own` no place is another session's."""
    return dice.randrange(2_000) * 64 + session - 1 if kind == "own" else dice.randrange(KEYS[kind])


def scan(kind, dice, place, most):
    """A scan from a key on over at most so many places; now and then its ends are no keys of the script, or it goes down."""
    ends = [in_order(kind)[it] for it in (place, min(place + dice.randrange(most), KEYS[kind] - 1))]
    turn = dice.randrange(12)
    if turn == 0:
        ends.reverse()
    elif turn < 4:
        ends = [end[:-1] if dice.randrange(2) else keys.after(end) or end for end in ends]
    return f"scan {keys.text(ends[0])} {keys.text(ends[1])}"


def command(kind, dice, session, done):
    """A command of a session: at first more keys come in than go out, then the other way round."""
    place = place_of(kind, dice, session)
    key = keys.text(in_order(kind)[place])
    rises = {"falling": done < 0.5, "waves": int(done * 40) % 2 == 0}.get(kind, done < 0.8)
    turn = dice.random()
    if turn < (0.5 if rises else 0.1):
        return f"insert {key} {dice.randrange(1_000_000)}"
    if turn < (0.7 if rises else 0.8):
        return f"delete {key}"
    if kind == "scans" and turn > 0.93:
        return scan(kind, dice, place, 400)
    if kind != "scans" and turn > 0.998:
        return scan(kind, dice, place, 100)
    return f"get {key}"


def script_of(kind, dice, count):
    """A script of so many commands; the shorter it is, the smaller is a space or a log that is to fill up."""
    lines, part = [], min(count, 20_000) / 20_000
    if kind == "small space":
        lines.append(f"space {dice.randrange(16, 17 + round(23 * part))} 16777216")
    if kind == "small log":
        lines.append(f"space 256 {dice.randrange(8_196, 8_197 + round(191_803 * part))}")
    sessions = dice.choice((2, 3, 4, 8, 16, 64))
    for session in range(1, sessions + 1):
        lines.append(f"session {session}")
        share = count // sessions
        lines.extend(command(kind, dice, session, done / share) for done in range(share))
    return "\n".join(lines) + "\n"


def keep(script, text, why):
    folder = tempfile.mkdtemp(prefix="ib_runs_")
    for name, data in (("script", script), ("output", text)):
        with open(os.path.join(folder, name), "w", encoding="ascii") as file:
            file.write(data)
    print(f"{why}; script and output are in {folder}")
    sys.exit(1)


def run(form, script):
    try:
        status, text = answer([form], script.encode())
    except subprocess.TimeoutExpired:
        keep(script, "", "a run hangs")
    if status != 0:
        keep(script, text.decode(), f"status {status}")
    return text.decode()


def main():
    words = sys.argv[1:] + ["100000", "57", "20000", "both"][len(sys.argv) - 1 :]
    total, seed, count = (int(word) for word in words[:3])
    forms = FORMS[words[3]]
    built()
    dice = random.Random(seed)
    start, commands, entries, seen = time.monotonic(), 0, 0, Counter()
    while commands < total:
        kind = KINDS[seen.total() % len(KINDS)]
        script = script_of(kind, dice, count)
        form = forms[seen.total() // len(KINDS) % len(forms)]
        text = run(form, script)
        try:
            entries += judge(script, text)
        except Wrong as wrong:
            keep(script, text, f"{form}, {kind}: {wrong}")
        seen[kind] += 1
        commands += count
    kinds = ", ".join(f"{runs} {kind}" for kind, runs in seen.items())
    print(f"{commands} commands in {seen.total()} runs of {words[3]} ({kinds}), {entries} entries, no difference; {time.monotonic() - start:.0f} s")


if __name__ == "__main__":
    main()

#!/usr/bin/env python3
"""Runs scripts of two trees with several sessions, each a thread of its own, and judges every reply of every run by judge_pairs.py.

The scripts are made here, of six kinds in turn: on keys that all sessions share, with few values that many keys share, on few keys, in
small spaces and with small logs that fill up, and of one session alone. The others have 2 to 64 sessions. Keys have 0 to 7 bytes (keys.py).
Words: how many commands in all (100,000 if none), a seed (57), and how many commands a script has (10,000).
It prints how many runs of each kind it judged, and how often each refusal came. At the first difference it prints what differs and the
folder with the script and the output, and ends with the status 1. A run that does not end in five minutes hangs, and is told in the same
way. It takes some ten seconds for 100,000 commands.
"""

import random
import sys
import time
from collections import Counter
from functools import cache

import keys
from check_runs import keep, run
from judge import Wrong
from judge_pairs import judge_pairs
from program import built

# How many keys the scripts of a kind have, and how many values.
KEYS = {"shared": 3_000, "few values": 2_000, "hot": 40, "small space": 500, "small log": 2_000, "alone": 1_500}
VALUES = {"few values": 5, "hot": 7}
KINDS = tuple(KEYS)


@cache
def some_keys(kind):
    """The keys of a kind of script, of 7 bytes at most."""
    found, number = [], 0
    while len(found) < KEYS[kind]:
        key = keys.nth(number)
        number += 1
        if len(key) <= 7:
            found.append(keys.text(key))
    return found


def command(kind, dice, done):
    """A command of a session: at first more keys come in than go out, then the other way round."""
    key, value = dice.choice(some_keys(kind)), dice.randrange(VALUES.get(kind, 400))
    turn = dice.random()
    if turn < (0.55 if done < 0.7 else 0.15):
        return f"insert {key} {value}"
    if turn < 0.8:
        return f"delete {key}"
    return f"value {value}" if turn < 0.9 else f"get {key}"


def script_of(kind, dice, count):
    """A script of so many commands; the shorter it is, the smaller is a space or a log that is to fill up."""
    lines, part = [], min(count, 10_000) / 10_000
    if kind == "small space":
        lines.append(f"space {dice.randrange(16, 17 + round(23 * part))} 16777216")
    if kind == "small log":
        lines.append(f"space 256 {dice.randrange(8_196, 8_197 + round(150_000 * part))}")
    sessions = 1 if kind == "alone" else dice.choice((2, 3, 4, 8, 16, 64))
    share = count // sessions
    for session in range(1, sessions + 1):
        lines.append(f"session {session}")
        lines.extend(command(kind, dice, done / share) for done in range(share))
    return "\n".join(lines) + "\n"


def main():
    words = sys.argv[1:] + ["100000", "57", "10000"][len(sys.argv) - 1 :]
    total, seed, count = (int(word) for word in words)
    built()
    dice = random.Random(seed)
    start, commands, entries, seen, refused = time.monotonic(), 0, 0, Counter(), Counter()
    while commands < total:
        kind = KINDS[seen.total() % len(KINDS)]
        script = script_of(kind, dice, count)
        text = run("pair", script)
        try:
            entries += judge_pairs(script, text)
        except Wrong as wrong:
            keep(script, text, f"{kind}: {wrong}")
        seen[kind] += 1
        commands += count
        refused["space full"] += text.count("-> space full ")
        refused["log full"] += text.count("-> log full ")
    kinds = ", ".join(f"{runs} {kind}" for kind, runs in seen.items())
    refusals = ", ".join(f"{count} {refusal}" for refusal, count in refused.items())
    print(f"{commands} commands in {seen.total()} runs ({kinds}), {entries} entries, {refusals}, no difference; {time.monotonic() - start:.0f} s")


if __name__ == "__main__":
    main()

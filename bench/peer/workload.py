#!/usr/bin/env python3
"""workload.py KIND COMMANDS SESSIONS: a script on standard output. KIND: fill (disjoint inserts in mixed order), read (a load,
then 95% lookups), hot (the same of at most 2,000 keys), mixed (a load, then half lookups, a quarter inserts, a quarter deletes, shared
keys). At most 40,000 live keys and 200,000 commands, so that neither space nor log fills in any form of pages. Every other key is
`key.` and ten digits, and the others are 8 bytes, written `x:` and 16 hexadecimal digits; of the first kind two or three begin with
the same 8 bytes."""
import random, sys

kind, n, k = sys.argv[1], int(sys.argv[2]), int(sys.argv[3])
assert kind in ("fill", "read", "hot", "mixed") and 1 <= n <= 200000 and 1 <= k <= 64


def text(number):
    return f"x:{number:016x}" if number % 2 == 0 else f"key.{number:010}"


rnd = random.Random(f"{kind} {n} {k}")
load = min(n, 40000) if kind == "fill" else min(n // 10, 2000 if kind == "hot" else 40000)
keys = [text((i * 2654435761) % (1 << 32)) for i in range(max(1, load * 5 // 4))]
first = rnd.sample(keys, max(1, load))
lookups = {"fill": 1, "read": .95, "hot": .95, "mixed": .5}[kind]
out = []
for s in range(1, k + 1):
    lines = [f"insert {x} {s}" for x in first[s - 1::k]]
    while len(lines) < n // k:
        x, r = rnd.choice(keys), rnd.random()
        lines.append(f"get {x}" if r < lookups else f"insert {x} {s}" if r < (1 + lookups) / 2 else f"delete {x}")
    out += [f"session {s}"] + lines
print("\n".join(out))

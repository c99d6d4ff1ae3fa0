#!/usr/bin/env python3
"""Log files of version 1, made apart from the crates, and what `upgrade` makes of them.

In version 1 a key was a number, and a page had 128 words. An entry's writes say what those pages became; `upgrade` tests only that
they are in the grammar, so here their places ascend at random within the pages, and their words are anything.

As a script it makes logs of random changes, each key a number, and compares: `upgrade` must take each, and `replay` must print of what
it writes the same changes, each key the eight bytes of its number, and the same map. Then each log is spoiled once, and `upgrade` must
tell the fault that the model here finds. At the end it times one log of many inserts.
Words: how many logs (200 if none), a seed (61), and how many inserts the timed log has (60,000).
It prints how many logs were taken and refused, by kind of fault, and the seconds. At the first difference it prints both answers and
the name of a file with the input, and ends with the status 1. It takes about a minute.
"""

import random
import struct
import sys
import tempfile
import time
from collections import Counter

import keys
from program import answer, built

FORM, PAGE_WORDS, HEAD, MOST_WRITES, MOST_SESSIONS = 0x49424C4F47353731, 128, 4, 4096, 1024
INSERT, DELETE, STRUCTURAL = 1, 2, 4
GREATEST = 2**64 - 1


def entry_words(session, number, inserts, key, value, writes):
    """The words of an entry; writes are pairs of a place and a word, by ascending places."""
    flags = (INSERT if inserts else DELETE) | (STRUCTURAL if len({place // PAGE_WORDS for place, _ in writes}) > 1 else 0)
    return [session << 32 | flags << 16 | len(writes), number, key, value if inserts else 0, *(word for write in writes for word in write)]


def file_of(pages, words, form=FORM):
    """The bytes of a log file: each number has 64 bits, the highest byte first."""
    return struct.pack(f">{len(words) + 2}Q", form, pages, *words)


def some_writes(dice, pages):
    """A few writes of the grammar. They say nothing of a tree."""
    count = dice.choice([1, 2, 8, 9])
    first = dice.randrange(pages) * PAGE_WORDS
    end = pages * PAGE_WORDS if dice.random() < 0.2 else first + PAGE_WORDS
    places = sorted(dice.sample(range(first, end), count))
    return [(place, dice.getrandbits(64)) for place in places]


def some_log(dice, pages, many):
    """The words of a log of random changes that the map makes, with the changes and the map of them."""
    known, counts, words, changes = {}, Counter(), [], []
    least = dice.choice([0, 1000, 2**63])
    for _ in range(many):
        session = dice.choice([1, 2, 7, MOST_SESSIONS])
        key = least + dice.randrange(2 * many + 1)
        counts[session] += 1
        inserts = key not in known
        value = dice.getrandbits(dice.choice([8, 64]))
        words += entry_words(session, counts[session], inserts, key, value, some_writes(dice, pages))
        if inserts:
            known[key] = value
        else:
            del known[key]
        changes.append((session, counts[session], inserts, key, value))
    return words, changes, known


def text_of(key):
    return keys.text(keys.of_number(key))


def printed(changes, known):
    """What `replay` prints of the log that is brought over."""
    lines = [f"log {len(changes)}"]
    for session, number, inserts, key, value in changes:
        lines.append(f"{session} {number} insert {text_of(key)} {value}" if inserts else f"{session} {number} delete {text_of(key)}")
    lines.append(f"map {len(known)}")
    lines += [f"{text_of(key)} {value}" for key, value in sorted(known.items())]
    return ("\n".join(lines) + "\n").encode()


def head_fault(at, words):
    """The first fault of the head of an entry at a place."""
    if len(words) < HEAD:
        return f"short at {at}"
    first, number, value = words[0], words[1], words[3]
    session, flags, count = first >> 32, first >> 16 & 65535, first & 65535
    if not 1 <= session <= MOST_SESSIONS or flags not in (1, 2, 5, 6) or not 1 <= count <= MOST_WRITES:
        return f"head at {at} word {first}"
    if not 1 <= number < 2**32:
        return f"head at {at} word {number}"
    if flags & DELETE and value:
        return f"head at {at} word {value}"
    if len(words) - HEAD < 2 * count:
        return f"short at {at}"
    return None


def places_fault(at, first, places, pages):
    low = 0
    for place in places:
        if place >= pages * PAGE_WORDS:
            return f"outside at {at} word {place}"
        if place < low:
            return f"write at {at} word {place}"
        low = place + 1
    if bool(first >> 16 & STRUCTURAL) != (len({place // PAGE_WORDS for place in places}) > 1):
        return f"head at {at} word {first}"
    return None


def fault_of(data):
    """The first fault of the bytes as a log of version 1, but for those of planning; none where there is none."""
    if len(data) % 8:
        return f"odd length {len(data)}"
    numbers = struct.unpack(f">{len(data) // 8}Q", data)
    if len(numbers) < 2:
        return "short at 0"
    if numbers[0] != FORM:
        return f"file at 0 word {numbers[0]}"
    if not 16 <= numbers[1] <= 4096:
        return f"file at 1 word {numbers[1]}"
    pages, words = numbers[1], numbers[2:]
    at, counts, known = 0, Counter(), set()
    while at < len(words):
        rest = words[at : at + HEAD + 2 * MOST_WRITES]
        fault = head_fault(at, rest)
        if fault:
            return fault
        end = HEAD + 2 * (rest[0] & 65535)
        fault = places_fault(at, rest[0], rest[HEAD:end:2], pages)
        if fault:
            return fault
        session, key = rest[0] >> 32, rest[2]
        if rest[1] != counts[session] + 1:
            return f"unlawful at {at} number"
        if (key in known) != bool(rest[0] >> 16 & DELETE):
            return f"unlawful at {at} change"
        counts[session] += 1
        known ^= {key}
        at += end
    return None


def spoiled(dice, data):
    """The bytes with one thing changed."""
    kind = dice.randrange(5)
    if kind == 0:
        return data[: dice.randrange(len(data))]
    at = 8 * dice.randrange(len(data) // 8)
    if kind == 1:
        return data[:at] + data[at + 8 :]
    word = struct.unpack(">Q", data[at : at + 8])[0]
    other = (0, GREATEST, (word + 1) % 2**64)[kind - 2]
    return data[:at] + struct.pack(">Q", other) + data[at + 8 :]


def differs(data, found, wanted):
    with tempfile.NamedTemporaryFile(prefix="old_log.", delete=False) as kept:
        kept.write(data)
    print("input", kept.name, "found", found, "wanted", wanted)
    return False


def is_brought_over(data, wanted):
    status, new = answer(["upgrade"], data)
    if status != 0:
        return differs(data, (status, new), "status 0")
    status, text = answer(["replay"], new)
    return (status, text) == (0, wanted) or differs(data, (status, text), wanted)


def check(dice, told):
    """Whether a log and a spoiled one of it are answered well."""
    pages = dice.choice([64, 4096])
    words, changes, known = some_log(dice, pages, dice.choice([1, 5, 40, 400]))
    data = file_of(pages, words)
    if not is_brought_over(data, printed(changes, known)):
        return False
    told["taken"] += 1
    other = spoiled(dice, data)
    fault = fault_of(other)
    found = answer(["upgrade"], other)
    if fault is None:
        return found[0] == 0 or differs(other, found, "status 0")
    told[" ".join(fault.split()[:1] + fault.split()[3:4] * fault.startswith("unlawful"))] += 1
    wanted = (7, f"bad log: {fault}\n".encode())
    return found == wanted or differs(other, found, wanted)


def timed(many):
    """The seconds that `upgrade` takes for so many inserts by ascending keys."""
    words = []
    for number in range(1, many + 1):
        words += entry_words(1, number, True, number, number, [(PAGE_WORDS, number)])
    data = file_of(4096, words)
    start = time.monotonic()
    status, new = answer(["upgrade"], data)
    print(f"{many} inserts, {len(data)} bytes to {len(new)}: status {status}, {time.monotonic() - start:.2f} s")
    return status == 0


def main():
    given = [int(word) for word in sys.argv[1:]]
    logs, seed, many = given + [200, 61, 60_000][len(given) :]
    built()
    dice, told = random.Random(seed), Counter()
    if not all(check(dice, told) for _ in range(logs)):
        return 1
    for kind, count in sorted(told.items()):
        print(f"{kind}: {count}")
    return 0 if timed(many) else 1


if __name__ == "__main__":
    sys.exit(main())

#!/usr/bin/env python3
"""Makes copies beside running sessions (`image`) and judges what each of them restores.

No key is two sessions' own, so the map in the end is told by the script alone, whatever the threads do. The model of check_models.py
restores each file apart from the crates: it must come to that map, and so must the program by `restore`. Where a file has the whole
log in its tail, each page must be word for word what the log makes of it at its place.
Words: how many copies (1,000 if none), a seed (61), and how many processes (4).
It prints how many copies were made before, after and beside changes, and ends with the status 1 at the first difference, whose folder
it names. It takes some three minutes on four processors.
"""

import os
import random
import struct
import subprocess
import sys
import tempfile
from collections import Counter
from multiprocessing import Pool

import keys
from check_models import HEAD, WORDS, entries_of, map_text, new_space, restore
from program import PROGRAM, built


def script_of(dice):
    """A script whose sessions change keys of their own, and the map that it leaves."""
    pages, sessions = dice.choice([256, 512, 1024, 4096]), dice.choice([1, 2, 3, 8])
    many = dice.choice([300, 1_000, 3_000]) // sessions
    lines, pairs = [f"space {pages} {64 * 1024 * sessions + 100 * many * sessions}"], {}
    for session in range(1, sessions + 1):
        lines.append(f"session {session}")
        for _ in range(many):
            key = keys.nth(dice.randrange(1_500) * 64 + session)
            if dice.randrange(3):
                value = dice.randrange(1_000)
                lines.append(f"insert {keys.text(key)} {value}")
                pairs.setdefault(key, value)
            else:
                lines.append(f"delete {keys.text(key)}")
                pairs.pop(key, None)
    return pages, "\n".join(lines).encode(), pairs


def called(form, data):
    done = subprocess.run([PROGRAM, form], input=data, stdout=subprocess.PIPE, timeout=300, check=False)
    return done.returncode, done.stdout


def copy_of(data):
    """How many pages a file has, the place and the words of each, and the writes of each entry of its tail."""
    numbers = struct.unpack(f">{len(data) // 8}Q", data)
    heads = [3 + page * (WORDS + 1) for page in range(numbers[1])]
    tail = list(numbers[3 + numbers[1] * (WORDS + 1) :])
    return numbers[1], [numbers[at] for at in heads], [numbers[at + 1 : at + 1 + WORDS] for at in heads], entries_of(tail, numbers[1])[0]


def wrong_page(data):
    """The first page that is not what the log makes of it at its place, of a file whose tail is the whole log."""
    count, places, images, entries = copy_of(data)
    pages = {page: [0] * WORDS for page in range(count)} | new_space()
    for number, writes in enumerate([*entries, []]):
        for page in range(count):
            if places[page] == number and list(images[page]) != pages[page]:
                return page
        for place, word in writes:
            pages[place // WORDS][place % WORDS] = word
    return None


def why_wrong(data, pairs):
    """Why a file is not the image file of a copy of a log that makes this map."""
    if restore(data) != (0, map_text(pairs)):
        return "the model restores another map"
    if called("restore", data) != (0, map_text(pairs).encode()):
        return "the program restores another map"
    places = copy_of(data)[1]
    if places != sorted(places):
        return "places fall"
    page = wrong_page(data) if places[0] == 0 else None
    return None if page is None else f"page {page} is not that of its place"


def tried(seed):
    """When the copy of one script was made, or what is wrong with it."""
    pages, script, pairs = script_of(random.Random(seed))
    status, data = called("image", script)
    why = f"the status is {status}" if status else why_wrong(data, pairs)
    if why is not None:
        folder = tempfile.mkdtemp(prefix="copy-")
        for name, content in (("script", script), ("image", data)):
            with open(os.path.join(folder, name), "wb") as file:
                file.write(content)
        return f"{folder}: {why}"
    _, places, _, entries = copy_of(data)
    if places[0] < places[-1]:
        return ("beside changes",)
    return ("before the last change" if entries else "after the last change",)


def main():
    count = int(sys.argv[1]) if len(sys.argv) > 1 else 1_000
    seed = int(sys.argv[2]) if len(sys.argv) > 2 else 61
    workers = int(sys.argv[3]) if len(sys.argv) > 3 else 4
    built()
    counts = Counter()
    with Pool(workers) as pool:
        for came in pool.imap_unordered(tried, (seed * 1_000_003 + turn for turn in range(count)), 8):
            if isinstance(came, str):
                print(came)
                pool.terminate()
                return 1
            counts.update(came)
    told = ", ".join(f"{number} {when}" for when, number in sorted(counts.items()))
    print(f"{sum(counts.values())} copies, {told}: each restores the map of the whole log")
    return 0


if __name__ == "__main__":
    sys.exit(main())

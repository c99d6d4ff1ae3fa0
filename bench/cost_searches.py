#!/usr/bin/env python3
"""Counts the processor instructions of a search for a key on a full page (ib_heap), by callgrind.

The program is cost_searches_main.txt beside this, proved and built over a copy of the crates of pages. It searches in a loop. Its keys
go over the whole page, and every other one is there. They are of two kinds: keys of 8 bytes, whose first words all differ, and keys of
15 bytes with the same first 8, which the second words alone tell apart. There are no words.
It prints for each kind the instructions of one `find`, one `get` and one `route`. A figure is that of the search alone: the
instructions of 21,000 searches less those of 7,000, by their number, and less those of the same loop with no search in it, which reads
the second word of its key. `route` is asked only where the key has a record that is not above it. From its figure those of the loop
with that question are taken off. It proves and builds twenty small programs, which takes some minutes.
"""

import os
import subprocess

import copied
from callgrind import instructions

CALLS = (7000, 21000)
# The key of a number.
KEYS = {
    "first words differ": "Key::of_number(number)",
    "first words are the same": """let mut bytes = [107; 15];
    bytes[14] = (number % 256) as u8;
    match Key::from_bytes(&bytes) {
        Ok(key) => key,
        Err(_) => Key::least(),
    }""",
}
IS_LED = "count(&words) > 0 && !is_below(key, record_at(&words, 0).0)"
# The page stays that of a tree while it is filled.
KEPT = """use Rattle.ib_heap.specs.Image.{IsTreePage}
use Rattle.ib_searches.proofs.full.Given as goal

abbrev pub invariant-loop-number : goal.invariant-loop-number
invariant-loop-number l = IsTreePage l.words
"""
# What the loop does for a key, where there is no search, and where there is one.
NO_SEARCH = {
    "loop": "key.words().1",
    "question": f"if {IS_LED} {{ 3 }} else {{ 0 }}",
}
SEARCHES = {
    "find": "match find(&words, key) { Ok(place) => place as u64, Err(place) => place as u64 }",
    "get": "match get(&words, key) { Some(value) => value, None => 0 }",
    "route": f"if {IS_LED} {{ route(&words, key) as u64 }} else {{ 0 }}",
}
# What is taken off the figure of each search.
BASE = {"find": "loop", "get": "loop", "route": "question"}


def whole(crate, key, search, calls):
    """The instructions of the whole program that makes so many searches."""
    main = copied.text_of("bench", "cost_searches_main.txt").replace("@KEY@", key).replace("@SEARCH@", search).replace("@CALLS@", str(calls))
    copied.write(os.path.join(crate, "src", "main.rt"), main)
    subprocess.run(["rt", "run"], cwd=crate, check=True, capture_output=True)
    return instructions([os.path.join(crate, "out", "ib_searches")])


def figures(crate, key):
    """The instructions of each search for keys of a kind."""
    few, many = CALLS
    counted = {}
    for name, search in (NO_SEARCH | SEARCHES).items():
        counted[name] = (whole(crate, key, search, many) - whole(crate, key, search, few)) / (many - few)
    return {name: counted[name] - counted[base] for name, base in BASE.items()}


def main():
    crate = copied.crate("ib_searches", ["ib_map", "ib_heap"], {"proofs/full/Invariants.antt": KEPT})
    for kind, key in KEYS.items():
        for search, count in figures(crate, key).items():
            print(f"{kind}: {search} instructions {round(count)}", flush=True)
    copied.remove(crate)


if __name__ == "__main__":
    main()

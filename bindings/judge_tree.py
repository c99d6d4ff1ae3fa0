#!/usr/bin/env python3
"""Runs a program of eight threads on one tree, and judges all that they were told by bench/judge.py.

Words: the program, and for how many seconds it runs (2 if none). It is run in a new folder, which it fills: session.N has the
commands of session N with their replies, log the log file, pages the words of the pages, map the pairs that the library made of the log.
Judged is that the log is one legal history, each reply what the map answers at its place, each session's changes in the log once and in
order, the map what the log makes, and each word of a page the last one that the log writes there. At the first thing that is wrong it is
told, and the status is 1; the folder stays then.
"""

import os
import shutil
import struct
import subprocess
import sys
import tempfile

sys.path.insert(0, os.path.join(os.path.dirname(os.path.abspath(__file__)), "..", "bench"))

import judge
import keys

HEAD, INSERT = 5, 1


def words_in(path):
    with open(path, "rb") as file:
        data = file.read()
    return struct.unpack(f">{len(data) // 8}Q", data)


def entries_of(words):
    """The lines of the log's entries, and by place the last word that is written there."""
    lines, last, at = [], {}, 2
    while at < len(words):
        head, number, first, second, value = words[at : at + HEAD]
        session, flags, count = head >> 32, head >> 16 & 0xFFFF, head & 0xFFFF
        key = keys.text(keys.key_of_words(first, second))
        lines.append(f"{session} {number} insert {key} {value}" if flags & 3 == INSERT else f"{session} {number} delete {key}")
        for write in range(at + HEAD, at + HEAD + 2 * count, 2):
            last[words[write]] = words[write + 1]
        at += HEAD + 2 * count
    return lines, last


def text_of(folder):
    """The script that the sessions ran, and what they were told, as the program ib_tool would print it."""
    words = words_in(os.path.join(folder, "log"))
    log, last = entries_of(words)
    pages = words_in(os.path.join(folder, "pages"))
    judge.need(all(pages[place] == word for place, word in last.items()), "a page has another word than the log writes last")
    script, told = [f"space {words[1]} 16777216"], []
    numbers = sorted(int(name.split(".")[1]) for name in os.listdir(folder) if name.startswith("session."))
    for number in numbers:
        with open(os.path.join(folder, f"session.{number}")) as file:
            lines = file.read().splitlines()
        script += [f"session {number}", *(line.split(" -> ")[0] for line in lines if " -> " in line)]
        told += [f"session {number}", *lines]
    with open(os.path.join(folder, "map")) as file:
        pairs = file.read().splitlines()
    told += [f"log {len(log)}", *log, f"map {len(pairs)}", *pairs]
    return "\n".join(script) + "\n", "\n".join(told) + "\n"


def main():
    program, seconds = os.path.abspath(sys.argv[1]), sys.argv[2] if len(sys.argv) > 2 else "2"
    folder = tempfile.mkdtemp(prefix="tree-")
    ran = subprocess.run([program, folder, seconds], capture_output=True, text=True, timeout=60 + 10 * int(seconds))
    if ran.returncode:
        sys.exit(f"status {ran.returncode} in {folder}: {ran.stdout}{ran.stderr}")
    try:
        entries = judge.judge(*text_of(folder))
    except judge.Wrong as wrong:
        sys.exit(f"wrong in {folder}: {wrong}")
    print(f"{ran.stdout.strip()}; {entries} entries in the log; each reply is legal")
    shutil.rmtree(folder)


if __name__ == "__main__":
    main()

#!/usr/bin/env python3
"""Where the time of the program goes on the peer's workloads, by samples of perf (Debian's linux-perf), grouped by what functions are for.

A sample tells where time went, waiting for memory too, which a count of instructions does not. The workloads are those of
peer/workload.py: loads, lookups and mixed commands, of one session and of four.
Words: how often each workload is run (5 if none), and how many commands it has (200,000).
It prints for each workload the number of samples, and for each group its share of all samples of the process, the kernel's among them.
It takes about a minute.
"""

import re
import subprocess
import sys
import tempfile
from collections import Counter

from program import PROGRAM, WORKLOAD, built

WORKLOADS = (("read", 1), ("fill", 1), ("mixed", 1), ("read", 4), ("mixed", 4))
PARTS = (
    ("the kernel: memory given and taken back, threads", r"kernel"),
    ("the script read", r"answer_script|ib_script|ib_io::(lines|fields|numbers|input|read)|first_line|key_in|plain_key|is_plain_text|hex_key|read_hex|byte_of|digit_number|from_bytes"),
    ("replies printed", r"print_|ib_text|itoa|Writer|ib_io"),
    ("searches where pages lie", r"ib_heap::(search|directory|words)|held_page|order_by_(first|second)"),
    ("pages loaded", r"read_page|load"),
    ("commits", r"commits::Mtr\+L"),
    ("records put in, taken out, looked at", r"ib_heap|ib_page|ib_leaf|index::leaf|ib_index::(grow|shrink)|ib_split|ib_merge|ib_plans"),
    ("opening, closing, the map read off", r"run_in|run_script|mem(set|move|cpy)|decode|PlainMap|ib_validate|ib_tree|chunks_from|ib_map|move_within"),
    ("latches, their turns, the memo, the way down", r"ib_core|ib_latch|ib_rule|ib_mtr|ib_cursor|ib_index|ib_runs::session|ForeverIterator"),
)


def samples(script):
    """The samples of one run, by part."""
    found = Counter()
    with tempfile.NamedTemporaryFile() as out, open(script) as given:
        words = ["perf", "record", "-e", "cpu-clock", "-F", "8000", "-o", out.name, PROGRAM, "run"]
        subprocess.run(words, stdin=given, stdout=subprocess.DEVNULL, stderr=subprocess.DEVNULL, check=True)
        words = ["perf", "report", "-i", out.name, "--stdio", "-F", "overhead,sample,dso,symbol"]
        told = subprocess.run(words, capture_output=True, text=True, check=True).stdout
    for line in told.splitlines():
        row = re.match(r"\s*[\d.]+%\s+(\d+)\s+(\S+\s+\[.\] .*)", line)
        if row:
            part = next((name for name, words in PARTS if re.search(words, row.group(2))), "other")
            found[part] += int(row.group(1))
    return found


def main():
    times, commands = [int(word) for word in sys.argv[1:]] + [5, 200_000][len(sys.argv) - 1 :]
    built()
    with tempfile.NamedTemporaryFile("w") as script:
        for kind, sessions in WORKLOADS:
            script.seek(0)
            script.truncate()
            subprocess.run([sys.executable, WORKLOAD, kind, str(commands), str(sessions)], stdout=script, check=True)
            found = sum((samples(script.name) for _ in range(times)), Counter())
            print(f"{kind}, {sessions} sessions: {found.total()} samples")
            for name, count in found.most_common():
                print(f"{100 * count / found.total():5.1f}%  {name}", flush=True)


if __name__ == "__main__":
    main()

#!/usr/bin/env python3
"""Where the milliseconds of a run go by phases, ours and the peer's: read, open, run, close, print.

Ours is told by the samples of perf (Debian's linux-perf), which have a time and a function each. A run goes through its phases one after
the other, so that a phase ends where the last sample of its own functions stands, or where the first one of the next phase does: *read* is
the script read and parsed, *open* the words laid out and the table made of them, *run* the sessions, *close* the log decoded and the
map read off, and *print* all that is printed, with what is given back at the end. The peer tells its phases itself (peer/README.md); of
it *open* has the start of its threads, and it has nothing to close. Sampling slows ours by some per cent: cost_beside_the_peer.py has the
times of the whole.
Words: the peer's program, as peer/build.sh builds it, how often each workload is run (5 if none), and how many commands it has (200,000).
It prints for each workload the phases of both in milliseconds, the median of the runs. It takes about a minute.
"""

import re
import statistics
import subprocess
import sys
import tempfile

from program import PROGRAM, WORKLOAD, built

WORKLOADS = (("read", 1), ("fill", 1), ("mixed", 1), ("read", 4), ("fill", 4), ("mixed", 4))
PHASES = ("read", "open", "run", "close", "print")
READS = re.compile(r"ib_script|answer_script|ib_text::(key|spelling)::(key_in|plain_key|hex_key|read_hex)|ib_io::(line|read|number|source)")
RUNS = re.compile(r"ib_cursor|ib_mtr|ib_latch|ib_core|ib_frames")
PRINTS = re.compile(r"print_|ib_text::\w+_part|Writer|ib_io::printed")


def samples(script):
    """The samples of one run, in the order of time: seconds and function."""
    with tempfile.NamedTemporaryFile() as out, open(script) as given:
        words = ["perf", "record", "-e", "cpu-clock", "-F", "8000", "-o", out.name, PROGRAM, "run"]
        subprocess.run(words, stdin=given, stdout=subprocess.DEVNULL, stderr=subprocess.DEVNULL, check=True)
        words = ["perf", "script", "-i", out.name, "-F", "time,ip,sym"]
        told = subprocess.run(words, capture_output=True, text=True, check=True).stdout
    found = re.findall(r"^\s*([\d.]+):\s+[0-9a-f]+\s+(.*)$", told, re.M)
    return sorted((float(seconds), name) for seconds, name in found)


def phases_of(script):
    """The milliseconds of each phase of one run of ours."""
    taken = samples(script)
    running = [seconds for seconds, name in taken if RUNS.search(name)]
    first, last = running[0], running[-1]
    start, end = taken[0][0], taken[-1][0]
    read = max((seconds for seconds, name in taken if seconds < first and READS.search(name)), default=start)
    printing = min((seconds for seconds, name in taken if seconds > last and PRINTS.search(name)), default=end)
    marks = (start, read, first, last, printing, end)
    return [1e3 * (after - before) for before, after in zip(marks, marks[1:])]


def peer_phases(peer, script):
    """The milliseconds of each phase of one run of the peer, as it tells them."""
    with open(script) as given:
        done = subprocess.run([peer, "--engine", "coupled-log", "--times"], stdin=given, stdout=subprocess.DEVNULL, stderr=subprocess.PIPE, text=True, check=True)
    told = {name: 1e3 * float(seconds) for name, seconds in re.findall(r"(parse|open|spawn|run|print) ([0-9.]+)", done.stderr)}
    return [told["parse"], told["open"] + told["spawn"], told["run"], 0.0, told["print"]]


def line(rows):
    medians = [statistics.median(row[i] for row in rows) for i in range(len(PHASES))]
    parts = ", ".join(f"{name} {value:.0f}" for name, value in zip(PHASES, medians))
    return f"{parts}; all {sum(medians):.0f}"


def main():
    peer = sys.argv[1]
    times, commands = [int(word) for word in sys.argv[2:]] + [5, 200_000][len(sys.argv) - 2 :]
    built()
    with tempfile.NamedTemporaryFile("w") as script:
        for kind, sessions in WORKLOADS:
            script.seek(0)
            script.truncate()
            subprocess.run([sys.executable, WORKLOAD, kind, str(commands), str(sessions)], stdout=script, check=True)
            script.flush()
            ours = [phases_of(script.name) for _ in range(times)]
            theirs = [peer_phases(peer, script.name) for _ in range(times)]
            print(f"{kind}, {sessions} sessions, ours: {line(ours)}", flush=True)
            print(f"{kind}, {sessions} sessions, the peer: {line(theirs)}", flush=True)


if __name__ == "__main__":
    main()

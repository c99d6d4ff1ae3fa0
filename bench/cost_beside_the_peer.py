#!/usr/bin/env python3
"""Times the program beside its peer: the same job in plain Rust, unproved (peer/README.md).

Both run the same scripts in turn, which peer/workload.py makes: loads, lookups on many keys and on few, and mixed commands, of 20,000
and 200,000 commands, in one, two and four sessions. The peer prints how long it opened, ran and printed. Ours is timed from outside, by
`run` and by `fast`: its run phase is its wall time less that of a script of the same sessions with one lookup each. Of one session the
best time counts, of more the median. Peak memory is that of the process.
Words: the peer's program, as peer/build.sh builds it, how often each script is run (5 if none), and how many commands the scripts have
(20,000 and 200,000; each number is a row).
It prints for each script the run phase, the whole, and the peak, each of `run`, of `fast` and of the peer. It takes some minutes.
"""

import os
import re
import statistics
import subprocess
import sys
import tempfile
import time

from program import PROGRAM, WORKLOAD, built

KINDS = ("fill", "read", "hot", "mixed")
FORMS = ("run", "fast")
COUNTS = [20_000, 200_000]
SESSIONS = (1, 2, 4)


def timed(words, script):
    """Seconds, and peak of resident memory in MB."""
    with open(script) as given, open(os.devnull, "w") as taken:
        start = time.monotonic()
        child = subprocess.Popen(words, stdin=given, stdout=taken, stderr=taken)
        _, status, usage = os.wait4(child.pid, 0)
        seconds = time.monotonic() - start
        if status != 0:
            sys.exit(f"{words[0]} ends with {os.waitstatus_to_exitcode(status)}")
        return seconds, usage.ru_maxrss / 1024


def run_of(peer, script):
    """The seconds of the peer's run phase, as it tells them."""
    with open(script) as given:
        done = subprocess.run([peer, "--engine", "coupled-log", "--quiet"], stdin=given, capture_output=True, text=True, check=True)
    return float(re.search(r" run ([0-9.]+)", done.stdout + done.stderr).group(1))


def figure(times, sessions):
    return min(times) if sessions == 1 else statistics.median(times)


def measure(peer, script, bare, sessions, times):
    """The run phase and the whole of both forms and of the peer, in turn, and the peaks."""
    whole, opening, runs = {form: [] for form in (*FORMS, peer)}, {form: [] for form in FORMS}, []
    peaks = {}
    for _ in range(times):
        for form in FORMS:
            seconds, peaks[form] = timed([PROGRAM, form], script)
            whole[form].append(seconds)
            opening[form].append(timed([PROGRAM, form], bare)[0])
        seconds, peaks[peer] = timed([peer, "--engine", "coupled-log"], script)
        whole[peer].append(seconds)
        runs.append(run_of(peer, script))
    ends = {form: figure(times, sessions) for form, times in whole.items()}
    ran = {form: ends[form] - figure(opening[form], sessions) for form in FORMS}
    ran[peer] = figure(runs, sessions)
    return "; ".join(
        f"{what} {', '.join(f'{table[form] * unit:.{digits}f}' for form in (*FORMS, peer))}"
        for what, table, unit, digits in (("run phase (ms)", ran, 1e3, 1), ("whole (ms)", ends, 1e3, 1), ("peak (MB)", peaks, 1, 0))
    )


def main():
    peer = sys.argv[1]
    times = int(sys.argv[2]) if len(sys.argv) > 2 else 5
    counts = [int(word) for word in sys.argv[3:]] or COUNTS
    built()
    with tempfile.TemporaryDirectory() as folder:
        script, bare = os.path.join(folder, "script"), os.path.join(folder, "bare")
        for kind in KINDS:
            for count in counts:
                for sessions in SESSIONS:
                    with open(script, "w") as file:
                        subprocess.run([sys.executable, WORKLOAD, kind, str(count), str(sessions)], stdout=file, check=True)
                    with open(bare, "w") as file:
                        file.writelines(f"session {session}\nget 0\n" for session in range(1, sessions + 1))
                    print(f"{kind:5} {count:6} commands, {sessions} sessions: {measure(peer, script, bare, sessions, times)}", flush=True)


if __name__ == "__main__":
    main()

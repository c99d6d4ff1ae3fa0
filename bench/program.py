"""The program that the scripts of this folder run, and how they start it.

It is crates/ib_tool/out/ib_tool, where `rt ci` leaves it. `built` calls the wrapper ./ib_tool once, which proves and builds the program
where it is not there, or is of other sources; that takes long on a new machine. After that the scripts start the program itself: the
wrapper looks at all sources at each call, which takes a tenth of a second. Where the variable IB_TOOL names a program, that one is run
in its place, as it is.
"""

import os
import subprocess

TOP = os.path.dirname(os.path.dirname(os.path.abspath(__file__)))
BENCH = os.path.join(TOP, "bench")
WORKLOAD = os.path.join(BENCH, "peer", "workload.py")
WRAPPER = os.path.join(TOP, "ib_tool")
OTHER = os.environ.get("IB_TOOL")
PROGRAM = os.path.abspath(OTHER) if OTHER else os.path.join(TOP, "crates", "ib_tool", "out", "ib_tool")


def built():
    """Builds the program where that is needed. A script calls this before it runs the program."""
    if not OTHER:
        subprocess.run([WRAPPER, "run"], stdin=subprocess.DEVNULL, stdout=subprocess.DEVNULL, check=True)


def answer(words, data, seconds=300):
    """The status and the output of the program for these words and this input. It may take so many seconds."""
    done = subprocess.run([PROGRAM, *words], input=data, stdout=subprocess.PIPE, timeout=seconds, check=False)
    return done.returncode, done.stdout

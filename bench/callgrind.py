"""How many processor instructions a program takes, as callgrind (of valgrind) counts them."""

import re
import subprocess
import tempfile

COMMAND = ("valgrind", "--tool=callgrind")


def instructions(words, data=b""):
    """Those of a whole run of this program and these words, on this input, which is a file."""
    with tempfile.TemporaryFile() as given:
        given.write(data)
        given.seek(0)
        command = [*COMMAND, "--callgrind-out-file=/dev/null", *words]
        told = subprocess.run(command, stdin=given, stdout=subprocess.DEVNULL, stderr=subprocess.PIPE, check=True, text=True).stderr
    return int(re.search(r"Collected : (\d+)", told).group(1))

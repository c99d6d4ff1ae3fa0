"""Copies of crates in a folder of their own, with one crate more over them. No gate proves that crate: its program is for a script of
bench/ alone, which removes the folder at its end.
"""

import os
import shutil
import tempfile

from program import TOP


def text_of(*path):
    """The text of a file of the repository."""
    with open(os.path.join(TOP, *path), encoding="utf-8") as file:
        return file.read()


def write(path, text):
    os.makedirs(os.path.dirname(path), exist_ok=True)
    with open(path, "w", encoding="utf-8") as file:
        file.write(text)


def lines_of_crates():
    """The line of each crate in crates.txt, by its name."""
    lines = text_of("crates.txt").splitlines()
    return {line.split(":")[0].split()[0]: line for line in lines if line and not line.startswith("#")}


def crate(name, needs, files, left_out=()):
    """A crate with these files over copies of the crates that it stands on, without what is left out of each. Answers its folder."""
    top = tempfile.mkdtemp(prefix=f"{name}_")
    lines = lines_of_crates()
    for it in needs:
        shutil.copytree(os.path.join(TOP, "crates", it), os.path.join(top, "crates", it), ignore=shutil.ignore_patterns(*left_out))
    shutil.copy(os.path.join(TOP, "HANDLES"), top)
    write(os.path.join(top, "crates.txt"), "\n".join([*(lines[it] for it in needs), f"{name}: {' '.join(needs)}", ""]))
    folder = os.path.join(top, "crates", name)
    for path, text in files.items():
        write(os.path.join(folder, path), text)
    return folder


def remove(folder):
    """Removes the folder with a crate and the copies."""
    shutil.rmtree(os.path.dirname(os.path.dirname(folder)))

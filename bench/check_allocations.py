#!/usr/bin/env python3
"""Makes each allocation of the program fail in turn: the N-th alone, for each N from 1 on, until a run makes fewer than N.

A small library is put in front of the C library's malloc and realloc. It is compiled here, with cc. It counts the calls that come from
the program itself, and refuses one of them. Then the program must end with status 5 and have written nothing, or with what it writes
otherwise. What is printed of several sessions is judged by judge.py, and image files by the model of check_models.py. There are no words.
It prints for each input how many allocations were made to fail, and what came of them. The first other ending of an input is printed
in place of that, and the status is then 1. It takes some seconds.
"""

import os
import subprocess
import sys
import tempfile

from check_models import restore
from judge import Wrong, judge
from program import PROGRAM, TOP, answer, built

LIBRARY = r"""
#define _GNU_SOURCE
#include <dlfcn.h>
#include <link.h>
#include <stdatomic.h>
#include <stdlib.h>
#include <unistd.h>

static uintptr_t low, high;
static atomic_long made;
static long failing;
static void *(*real_malloc)(size_t), *(*real_realloc)(void *, size_t);

static int first(struct dl_phdr_info *info, size_t size, void *data) {
    for (int i = 0; i < info->dlpi_phnum; i++)
        if (info->dlpi_phdr[i].p_type == PT_LOAD && info->dlpi_phdr[i].p_flags & PF_X) {
            low = info->dlpi_addr + info->dlpi_phdr[i].p_vaddr;
            high = low + info->dlpi_phdr[i].p_memsz;
        }
    return 1;
}

__attribute__((constructor)) static void start(void) {
    real_malloc = dlsym(RTLD_NEXT, "malloc");
    real_realloc = dlsym(RTLD_NEXT, "realloc");
    dl_iterate_phdr(first, 0);
    char *word = getenv("FAILING");
    failing = word ? atol(word) : 0;
}

static int refused(void *from) {
    uintptr_t at = (uintptr_t)from;
    if (at < low || at >= high || ++made != failing) return 0;
    write(2, "refused\n", 8);
    return 1;
}

void *malloc(size_t size) {
    if (!real_malloc) real_malloc = dlsym(RTLD_NEXT, "malloc");
    return refused(__builtin_return_address(0)) ? 0 : real_malloc(size);
}

void *realloc(void *old, size_t size) {
    if (!real_realloc) real_realloc = dlsym(RTLD_NEXT, "realloc");
    return refused(__builtin_return_address(0)) ? 0 : real_realloc(old, size);
}
"""

ONE = b"space 64 65536\ninsert 1 10\ninsert x: 20\nget 1\ndelete x:\ninsert x:00ff 30\nscan x: 9\nscan 9 0\n"
TWO = b"space 64 200000\nsession 1\n" + b"".join(b"insert %d 1\ninsert x:%016x 2\n" % (key, key) for key in range(30)) + b"scan x: 99\nsession 2\nscan 0 99\ndelete 5\nget 7\nsession 4\nget 1\n"
PAIR = b"space 64 65536\ninsert a 5\ninsert x: 5\nvalue 5\nget a\ndelete a\nvalue 5\n"


def example(name):
    with open(os.path.join(TOP, "examples", name), "rb") as file:
        return file.read()


ROWS = (
    (["run"], ONE),
    (["run"], TWO),
    (["fast"], ONE),
    (["fast"], TWO),
    (["pair"], PAIR),
    (["pair"], b"insert a 5\ninsert abcdefgh 5\n"),
    (["raw"], ONE),
    (["raw"], TWO),
    (["image"], ONE),
    (["image"], TWO),
    (["gen", "300", "7", "3"], b""),
    (["run"], b"insert 1\n"),
    (["run"], b"insert 1 10\ninsert 1\n"),
    (["run"], b"insert 1 10\nget x:31\n"),
    (["latch"], b"1 x 0 4\n2 arm 0 s 4\n1 ux 0\n"),
    (["latch"], b"1 x 0 4\n1 ux\n"),
    (["replay"], example("insert.log")),
    (["upgrade"], example("old.log")),
    # The form alone: its input is what `image` writes.
    (["restore"], None),
)


def end(library, words, data, failing):
    environment = {**os.environ, "LD_PRELOAD": library, "FAILING": str(failing)}
    done = subprocess.run([PROGRAM, *words], input=data, capture_output=True, env=environment, timeout=120, check=False)
    return done.returncode, done.stdout, b"refused" not in done.stderr


def is_right(words, data, whole, found):
    """Whether an ending without a refusal is one that the program may have."""
    if words == ["image"]:
        # Where the copy stands in the log hangs on the threads.
        return found[0] == 0 and restore(found[1])[0] == 0 and (data == TWO or restore(found[1]) == restore(whole[1]))
    if data != TWO:
        return found == whole
    if words in (["run"], ["fast"]):
        try:
            judge(data.decode(), found[1].decode())
        except Wrong:
            return False
    return found[0] == whole[0]


def sweep(library, words, data):
    whole = end(library, words, data, 0)[:2]
    refused, failing = 0, 1
    while True:
        status, text, is_past = end(library, words, data, failing)
        if is_past:
            break
        if (status, text) == (5, b""):
            refused += 1
        elif not is_right(words, data, whole, (status, text)):
            print(f"{' '.join(words)}: with allocation {failing} failing the status is {status}, and {len(text)} bytes are written")
            return False
        failing += 1
    print(f"{' '.join(words)}, {len(data)} bytes: {failing - 1} allocations, {refused} of them told as status 5 with nothing written, the others not missed")
    return True


def main():
    built()
    with tempfile.TemporaryDirectory() as folder:
        source, library = os.path.join(folder, "failing.c"), os.path.join(folder, "failing.so")
        with open(source, "w") as file:
            file.write(LIBRARY)
        subprocess.run(["cc", "-O1", "-shared", "-fPIC", "-o", library, source, "-ldl"], check=True)
        image = answer(["image"], ONE)[1]
        return 0 if all([sweep(library, words, image if data is None else data) for words, data in ROWS]) else 1


if __name__ == "__main__":
    sys.exit(main())

#!/usr/bin/env python3
"""Spoils log files, image files, scripts and events that are in order, and compares what the program answers with the models of check_models.py.

Logs and image files are written by the program itself (`raw` and `image`, of scripts that split, raise, merge and lift), and logs by
tree_logs.py too. Each is spoiled once to four times: a bit or a byte changed, bytes cut out, put in or doubled, two words exchanged, a word replaced by 0, by the greatest, by another
word of the file or by one more, a count of writes out of range, the tail of another log behind the front of one. Scripts and events are
spoiled by bytes and by lines. Every input must be answered as the model answers it, and within a second of processor time.
Words: how many inputs (20,000 if none; of sixteen inputs six are logs, two image files, four scripts, two of them by `run`, one by `fast` and one by `pair`,
and four events), a seed (83), and how many processes (4). It prints how many inputs of each form were taken and refused, the longest time, and the most processor
time and memory that one of every tenth input took for each of its bytes, over what its form takes for an input with no command in the
largest space; an input of less than a kilobyte counts as one. At the first difference it prints what differs and the file with the input,
and ends with the status 1. It takes less than a minute for 20,000 inputs on four idle processors. GNU's `time` must be there.
"""

import os
import random
import signal
import struct
import subprocess
import sys
import tempfile
from collections import Counter
from multiprocessing import Pool

import keys
from check_models import IMAGE, WORDS, latch, new_space, pair, replay, restore, run, some_events, some_pair_script, some_script, some_tree
from judge import Wrong, commands_of, judge
from judge_pairs import judge_pairs
from program import PROGRAM, answer, built
from tree_logs import HEAD, entry_words, file_of

GREATEST = 2**64 - 1
SECONDS = 1.0

# One input of so many is run once more for what it takes of time and memory.
MEASURED = 10


def bytes_of(words):
    return struct.pack(f">{len(words)}Q", *(word & GREATEST for word in words))


# What the program reads for a form: no command, in the largest space; an image file has all of its pages. Its time and memory are those
# that do not hang on the length.
LARGEST = {
    "run": b"space 4096 16777216\n",
    "fast": b"space 4096 16777216\n",
    "pair": b"space 4096 16777216\n",
    "replay": b"IBLOG572" + (4096).to_bytes(8, "big"),
    "restore": bytes_of([IMAGE, 16, 0] + [word for page in range(16) for word in [0, *new_space().get(page, [0] * WORDS)]]),
    "latch": b"",
}


# The forms in turn, and what makes the lines of one.
TURNS = ("replay", "run", "restore", "latch", "replay", "fast", "replay", "latch", "replay", "pair", "restore", "latch", "replay", "run", "replay", "latch")
LINES = {"run": some_script, "fast": some_script, "pair": some_pair_script, "latch": some_events}


def measured(form, data):
    """The status, the output, and the processor seconds and the bytes of memory of the program for this input.

    GNU's `time` starts the program: what the system counts of one that this process starts has this process's own memory in it."""
    with tempfile.TemporaryFile() as source, tempfile.TemporaryFile() as sink, tempfile.NamedTemporaryFile() as note:
        source.write(data)
        source.seek(0)
        program = subprocess.Popen(["/usr/bin/time", "-q", "-f", "%M", "-o", note.name, "timeout", "60", PROGRAM, form], stdin=source, stdout=sink)
        _, status, used = os.wait4(program.pid, 0)
        program.returncode = os.waitstatus_to_exitcode(status)
        sink.seek(0)
        return program.returncode, sink.read(), (used.ru_utime + used.ru_stime, 1024 * int(note.read()))


def new_files():
    """What the program reads, and what it writes, one input after another, in a process of its own."""
    global SOURCE, SINK
    SOURCE, SINK = os.memfd_create("source"), os.memfd_create("sink")


def timed(form, data):
    """The status, the output, and the processor seconds of the program for this input. It may take a minute."""
    for file in (SOURCE, SINK):
        os.ftruncate(file, 0)
        os.lseek(file, 0, os.SEEK_SET)
    os.pwrite(SOURCE, data, 0)
    ends = [(os.POSIX_SPAWN_DUP2, SOURCE, 0), (os.POSIX_SPAWN_DUP2, SINK, 1)]
    program = os.posix_spawn(PROGRAM, [PROGRAM, form], os.environ, file_actions=ends)
    signal.signal(signal.SIGALRM, lambda *_: os.kill(program, signal.SIGKILL))
    signal.alarm(60)
    _, status, used = os.wait4(program, 0)
    signal.alarm(0)
    return os.waitstatus_to_exitcode(status), os.pread(SINK, os.fstat(SINK).st_size, 0), used.ru_utime + used.ru_stime


def least_of(form):
    """The least processor time and memory of a form, of five calls."""
    calls = [measured(form, LARGEST[form])[2] for _ in range(5)]
    return tuple(map(min, zip(*calls)))


def falling_script(dice):
    """Inserts that split and raise, and then deletes that merge and lift, on few pages."""
    many = dice.choice([20, 45, 90])
    order = [keys.text(keys.nth(number)) for number in range(many)]
    dice.shuffle(order)
    lines = ["space 64 60000"] + [f"insert {key} {dice.randrange(1000)}" for key in order]
    dice.shuffle(order)
    lines += [f"delete {key}" for key in order[: dice.randrange(many)]]
    return "\n".join(lines).encode()


def lawful_logs(dice, count):
    logs = [answer(["raw"], falling_script(dice))[1] for _ in range(count)]
    for _ in range(count):
        words, made, pages = [], {}, dice.choice([16, 17, 64, 4096])
        for entry in some_tree(dice, pages):
            session = dice.choice([1, 2, 1024])
            made[session] = made.get(session, 0) + 1
            words += entry_words(session, made[session], *entry)
        logs.append(file_of(pages, words))
    return [log for log in logs if len(log) > 16]


def lawful_images(dice, count):
    return [answer(["image"], falling_script(dice))[1] for _ in range(count)]


def words_in(data):
    return list(struct.unpack_from(f">{len(data) // 8}Q", data))


def heads_in(words):
    """Where the pages of an image file begin, and the entries of a log, as far as their counts tell."""
    heads, at = [0], 2
    if words[0] == IMAGE:
        heads += [3 + page * (WORDS + 1) for page in range(min(words[1], 64))]
        at = heads[-1] + WORDS + 1
    while at < len(words):
        heads.append(at)
        at += HEAD + 2 * (words[at] & 0xFFFF)
    return [head for head in heads if head < len(words)]


def spoiled_words(dice, data, other):
    words = words_in(data)
    heads = heads_in(words)
    at = dice.choice([dice.randrange(len(words)), min(dice.choice(heads) + dice.randrange(HEAD), len(words) - 1)])
    how = dice.randrange(7)
    if how == 0:
        words[at] = dice.choice([0, 1, GREATEST, words[at] + 1, words[at] - 1, words[at] ^ 1 << dice.randrange(64)])
    elif how == 1:
        words[at] = dice.choice(words)
    elif how == 2:
        there = dice.randrange(len(words))
        words[at], words[there] = words[there], words[at]
    elif how == 3:
        head = dice.choice(heads)
        words[head] = words[head] & ~0xFFFF | dice.choice([0, 1, 0xFFFF, 4095, 4096, (words[head] & 0xFFFF) + 1])
    elif how == 4:
        words = words[: dice.choice(heads)] + words_in(other)[2:]
    elif how == 5:
        head, end = dice.choice(heads), dice.choice(heads)
        words = words[:head] + words[end:]
    else:
        head = dice.choice(heads)
        words[head:head] = words[dice.choice(heads) :][: dice.randrange(40)]
    return bytes_of(words)


def spoiled_bytes(dice, data):
    at, how = dice.randrange(len(data)), dice.randrange(5)
    if how == 0:
        return data[:at] + bytes([data[at] ^ 1 << dice.randrange(8)]) + data[at + 1 :]
    if how == 1:
        return data[:at] + bytes([dice.randrange(256)]) + data[at + 1 :]
    if how == 2:
        return data[:at]
    if how == 3:
        return data[:at] + data[at + dice.choice([1, 8, 64]) :]
    return data[:at] + data[at : at + dice.choice([1, 8, 64])] + data[at:]


def spoiled_file(dice, logs):
    data = dice.choice(logs)
    for _ in range(dice.choice([1, 1, 2, 4])):
        if len(data) < 24 or dice.randrange(4) == 0:
            data = spoiled_bytes(dice, data) if data else data
        else:
            data = spoiled_words(dice, data, dice.choice(logs))
    return data


def spoiled_lines(dice, data):
    lines = data.split(b"\n")
    for _ in range(dice.choice([1, 2, 4])):
        at, how = dice.randrange(len(lines)), dice.randrange(5)
        if how == 0:
            lines[at] = spoiled_bytes(dice, lines[at]) if lines[at] else b" "
        elif how == 1:
            lines.insert(at, dice.choice(lines))
        elif how == 2:
            fields = lines[at].split(b" ")
            fields[dice.randrange(len(fields))] = dice.choice([b"", b"18446744073709551616", b"18446744073709551615", b"0", b"00", b"x:", b"x:0", b"\xff", b"_"])
            lines[at] = b" ".join(fields)
        elif how == 3:
            lines[at] = lines[at] + dice.choice([b" ", b" 1", b"\r", b"\0", b"\t"])
        else:
            lines[at], lines[0] = lines[0], lines[at]
    return b"\n".join(lines)


def is_told_full(text):
    return b" -> log full " in text or b" -> space full " in text


def why_differs(form, data, status, found):
    """Why this answer is not the model's; None where it is."""
    if form in ("run", "fast", "pair"):
        wanted, text = (pair if form == "pair" else run)(data)
        if wanted == 0 and status == 0:
            try:
                (judge_pairs if form == "pair" else judge)(data.decode("latin-1"), found.decode("latin-1"))
            except Wrong as wrong:
                return str(wrong)
            if len(commands_of(data.decode("latin-1"))[1]) > 1 or is_told_full(found):
                return None
    else:
        wanted, text = {"replay": replay, "restore": restore, "latch": latch}[form](data)
    return None if (status, found) == (wanted, text.encode()) else f"the program ends with {status}, the model with {wanted}"


def tried(work):
    """What came of so many inputs by this seed: counts, the longest time, and the most time and memory for a byte of each form."""
    seed, count = work
    dice = random.Random(seed)
    files = {"replay": lawful_logs(dice, 12), "restore": lawful_images(dice, 12)}
    counts, longest, most = Counter(), 0.0, {}
    least = {form: least_of(form) for form in LARGEST}
    for turn in range(count):
        form = TURNS[turn % len(TURNS)]
        if form in files:
            data = spoiled_file(dice, files[form])
        else:
            data = spoiled_lines(dice, LINES[form](dice))
        status, found, seconds = timed(form, data)
        why = why_differs(form, data, status, found)
        if why is None and seconds > SECONDS:
            seconds = timed(form, data)[2]
            why = f"it takes {seconds:.1f} seconds" if seconds > SECONDS else None
        if why is not None:
            with tempfile.NamedTemporaryFile(prefix="input-", delete=False) as file:
                file.write(data)
            return f"{form} < {file.name}: {why}"
        counts[form, status] += 1
        longest = max(longest, seconds)
        if dice.randrange(MEASURED) == 0:
            used = measured(form, data)[2]
            for_byte = [(more - base) / max(len(data), 1024) for more, base in zip(used, least[form])]
            most[form] = [max(pair) for pair in zip(most.get(form, for_byte), for_byte)]
    return counts, longest, most


def main():
    count = int(sys.argv[1]) if len(sys.argv) > 1 else 20_000
    seed = int(sys.argv[2]) if len(sys.argv) > 2 else 83
    workers = int(sys.argv[3]) if len(sys.argv) > 3 else 4
    built()
    portion = 4_000
    works = [(seed * 1_000_003 + turn, min(portion, count - turn * portion)) for turn in range((count + portion - 1) // portion)]
    counts, longest, most = Counter(), 0.0, {}
    with Pool(workers, new_files) as pool:
        for came in pool.imap_unordered(tried, works):
            if isinstance(came, str):
                print(came)
                pool.terminate()
                return 1
            counts.update(came[0])
            longest = max(longest, came[1])
            for form, for_byte in came[2].items():
                most[form] = [max(pair) for pair in zip(most.get(form, for_byte), for_byte)]
    for form in LARGEST:
        by_status = {status: number for (of, status), number in counts.items() if of == form}
        told = ", ".join(f"{number} with status {status}" for status, number in sorted(by_status.items()))
        print(f"{form}: {sum(by_status.values())} inputs, {told}: the same")
        if form in most:
            print(f"  at most {most[form][0] * 1e6:.1f} microseconds and {most[form][1]:.0f} bytes of memory for a byte of an input")
    print(f"the longest took {longest:.3f} s")
    return 0


if __name__ == "__main__":
    sys.exit(main())

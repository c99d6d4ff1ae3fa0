"""Judges what the program printed of a run: whether its log is one legal history of a sorted map, each reply what that map
answers at its place, and each session's changes in the log once and in order.

This stands apart from the definitions that the proofs speak of: it reads the script and the printed text alone, and replays the
log on a dictionary and a sorted list of its keys. Keys are read and ordered by keys.py.
"""

from bisect import bisect_left, bisect_right, insort
from collections import defaultdict
from functools import lru_cache

import keys

ENTRY_WORDS = 8_196


class Wrong(Exception):
    """What is wrong with the output."""


def need(holds, what):
    if not holds:
        raise Wrong(what)


@lru_cache(maxsize=1 << 18)
def key_of(field):
    """The key that a field spells; each key has one spelling."""
    try:
        return keys.key_in(field)
    except keys.BadKey:
        raise Wrong(f"`{field}` is no key") from None


def commands_of(script):
    """The sizes, and the commands of each session, as the script's lines have them."""
    sizes = (4096, 16_777_216)
    session, commands = 1, defaultdict(list)
    for line in script.split("\n"):
        if not line or line[0] == "#":
            continue
        word, _, rest = line.partition(" ")
        if word == "session":
            session = int(rest)
        elif word == "space":
            pages, log_words = rest.split(" ")
            sizes = (int(pages), int(log_words))
        else:
            commands[session].append(line)
    return sizes, commands


class Output:
    """The lines of an output, taken one after another."""

    def __init__(self, text):
        need(text.endswith("\n"), "the last line does not end")
        self.lines = text.split("\n")
        self.lines.pop()
        self.at = 0

    def take(self):
        need(self.at < len(self.lines), "the output ends too early")
        self.at += 1
        return self.lines[self.at - 1]

    def starts(self, word):
        return self.at < len(self.lines) and self.lines[self.at].startswith(word)

    def part(self, word):
        """The lines of a part that begins with a word and how many lines follow."""
        head = self.take().split(" ")
        need(len(head) == 2 and head[0] == word, f"no part `{word}`")
        count = int(head[1])
        lines = self.lines[self.at : self.at + count]
        need(len(lines) == count, f"the part `{word}` is too short")
        self.at += count
        return lines


class Run:
    """What is kept while a run is judged: what must hold at each place of the log."""

    def __init__(self, sizes):
        self.pages, self.log_words = sizes
        self.log = []
        self.at = defaultdict(list)  # by place: what must hold of the map there
        self.made = defaultdict(list)  # by session: its changes, each with its place
        self.full = {}  # by place: the words of the log that a refusal told there

    def ask(self, place, what):
        need(0 <= place <= len(self.log), f"place {place} is behind the log")
        self.at[place].append(what)

    def log_full(self, place, used, cap):
        need(cap == self.log_words, "another log's words")
        need(used + ENTRY_WORDS > cap, "the log had room")
        need(self.full.setdefault(place, used) == used, "two counts of words at one place")

    def changed(self, session, command, place):
        """A record of an insert or a delete that made its change. Answers what the session has seen then."""
        need(place < len(self.log), f"no entry at {place}")
        self.made[session].append((place, command))
        return place + 1


def scan_lines(run, output, session, command, count, reach):
    """The chunks of a scan: from its low key to its high key, at places that never fall, none before what was seen."""
    _, low, high = command.split(" ")
    low, high = key_of(low), key_of(high)
    start, place, pairs = low, reach, 0
    while output.starts("from "):
        _, first, _, last, _, at = output.take().split(" ")
        first, last, at = key_of(first), key_of(last), int(at)
        need(first == start and first <= last <= high, f"a chunk of `{command}` begins at {keys.text(first)}")
        need(at >= place, f"a chunk of `{command}` stands before another")
        found = []
        while output.starts("pair "):
            _, key, value = output.take().split(" ")
            found.append((key_of(key), int(value)))
        run.ask(at, ("cut", first, last, found))
        start, place, pairs = keys.after(last), at, pairs + len(found)
    need(start == (keys.after(high) if low <= high else low), f"the chunks of `{command}` do not end at its high key")
    need(pairs == count, f"`{command}` counts {count} of {pairs} pairs")
    return place


def reply_line(run, session, command, reply, place, reach):
    """A record of any other call."""
    need(place >= reach, f"`{command}` stands before what session {session} had seen")
    words = command.split(" ")
    key = key_of(words[1])
    if words[0] == "get":
        run.ask(place, ("value", key, None if reply == "none" else int(reply)))
        return place
    if words[0] == "insert":
        if reply == "inserted":
            return run.changed(session, command, place)
        if reply == "duplicate":
            run.ask(place, ("there", key))
            return place
    else:
        if reply.startswith("deleted "):
            run.ask(place, ("value", key, int(reply[8:])))
            return run.changed(session, command, place)
        if reply == "missing":
            run.ask(place, ("value", key, None))
            return place
    told = reply.split(" ")
    if told[:3] == ["log", "full", "used"]:
        run.log_full(place, int(told[3]), int(told[5]))
        run.ask(place, ("value", key, None) if words[0] == "insert" else ("there", key))
        return place
    need(words[0] == "insert", f"`{reply}` to `{command}`")
    run.ask(place, ("value", key, None))
    if told[:3] == ["space", "full", "free"]:
        need(int(told[3]) < int(told[5]) <= 8, f"`{reply}`")
        need(int(told[3]) <= run.pages - 2, f"`{reply}`")
    else:
        need(reply == "too high", f"`{reply}`")
    return place


SCAN = ("scan", "pairs", scan_lines)


def session_part(run, output, session, commands, scan=SCAN):
    """The part of a session. A scan is told by its word, by what its reply counts, and by who reads its chunks."""
    word, counted, chunk_lines = scan
    need(output.take() == f"session {session}", f"no part of session {session}")
    reach = 0
    for command in commands:
        line = output.take()
        need(line.startswith(command + " -> "), f"`{line}` does not answer `{command}`")
        reply = line[len(command) + 4 :]
        if command.startswith(word + " "):
            count, _, what = reply.partition(" ")
            need(what == counted, f"`{line}`")
            reach = chunk_lines(run, output, session, command, int(count), reach)
        else:
            reply, _, place = reply.rpartition(" at ")
            reach = reply_line(run, session, command, reply, int(place), reach)


class Book:
    """The map at a place of the log, with its keys in order where scans are to be judged."""

    def __init__(self, scans):
        self.values = {}
        self.ordered = [] if scans else None

    def put(self, key, value):
        self.values[key] = value
        if self.ordered is not None:
            insort(self.ordered, key)

    def take(self, key):
        if self.ordered is not None:
            del self.ordered[bisect_left(self.ordered, key)]
        return self.values.pop(key)

    def holds(self, what):
        if what[0] == "value":
            return self.values.get(what[1]) == what[2]
        if what[0] == "there":
            return what[1] in self.values
        low, high, found = what[1:]
        part = self.ordered[bisect_left(self.ordered, low) : bisect_right(self.ordered, high)]
        return found == [(key, self.values[key]) for key in part]


def replay(run, book):
    """The log is a legal history, and what must hold at each place does. The book has the map in the end."""
    numbers, made = defaultdict(int), defaultdict(list)
    for place in range(len(run.log) + 1):
        for what in run.at.get(place, ()):
            need(book.holds(what), f"at {place}: {what}")
        if place == len(run.log):
            break
        session, number, command = run.log[place].split(" ", 2)
        session = int(session)
        numbers[session] += 1
        need(int(number) == numbers[session], f"entry {place} has the number {number}")
        made[session].append((place, command))
        words = command.split(" ")
        key = key_of(words[1])
        if words[0] == "insert":
            need(key not in book.values, f"entry {place} puts {words[1]} in again")
            book.put(key, int(words[2]))
        else:
            need(words[0] == "delete" and key in book.values, f"entry {place} takes {words[1]} out of nothing")
            book.take(key)
    need(made == run.made, "the log's entries are not the sessions' changes")


def parts_of(script, text, behind=()):
    """The run that a script and a text are of, the text's lines from the sessions on, and its map and the parts behind it."""
    sizes, commands = commands_of(script)
    output = Output(text)
    run = Run(sizes)
    output.at = next((i for i, line in enumerate(output.lines) if line.startswith("log ")), len(output.lines))
    run.log = output.part("log")
    parts = [output.part(word) for word in ("map", *behind)]
    need(output.at == len(output.lines), "lines behind the last part")
    output.at = 0
    return run, output, commands, parts


def map_lines(values):
    return [f"{keys.text(key)} {values[key]}" for key in sorted(values)]


def judge(script, text):
    """Raises Wrong where the text is no output of the script. Answers how many entries the log has."""
    run, output, commands, (pairs,) = parts_of(script, text)
    for session in sorted(commands):
        session_part(run, output, session, commands[session])
    need(output.starts("log "), "lines before the log")
    book = Book(any(what[0] == "cut" for asked in run.at.values() for what in asked))
    replay(run, book)
    need(pairs == map_lines(book.values), "the map is not what the log makes")
    return len(run.log)

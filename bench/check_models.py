#!/usr/bin/env python3
"""Compares the program with small models of its forms, on random inputs, good ones and bad ones.

The proofs say that the program answers as the definitions do. This looks whether the definitions say what was meant. So the models
stand apart from them: scripts on a dictionary, events on latches that keep who holds them, logs by their table, with a walk of the
whole tree after each entry, and image files by theirs. Keys are spelled, ordered and kept as words by keys.py. A script of several sessions may print many
outputs, and so may one whose log or space gets full: these are judged by judge.py. What `raw` writes must replay. What `gen` counts
must be what the sessions' keys give.
Words: how many inputs of each form (2,000 if none; `restore` has a half of them, `gen` a tenth), and a seed (57).
It prints a line for each form. At the first difference it prints what differs and the file with the input, and ends with the
status 1. It takes some ten seconds for 100 inputs, and some minutes for 2,000.
"""

import random
import struct
import sys
import tempfile
from functools import lru_cache

import heaps
import keys
from judge import Wrong, commands_of, judge
from judge_pairs import judge_pairs
from program import answer, built
from tree_logs import FORM, HEAD, WORDS, Tree, entry_words, file_of, new_space

GREATEST = 2**64 - 1
IMAGE = 0x4942494D47353732
FULL = 0x2000_0000
HALF = 0x1000_0000


class Bad(Exception):
    """Why a line is bad."""


def number(field):
    """The number that a field spells."""
    digits = field.isdigit() and field.isascii() and (field == b"0" or not field.startswith(b"0"))
    if not digits or int(field) > GREATEST:
        raise Bad("number")
    return int(field)


def key_in(field):
    """The key that a field spells."""
    try:
        return keys.key_in(field)
    except keys.BadKey:
        raise Bad("key") from None


def lines(data):
    """The lines that are not skipped, with their numbers."""
    for count, line in enumerate(data.split(b"\n"), 1):
        if line and not line.startswith(b"#"):
            yield count, line


def refused(line, kind):
    return 2, f"script: line {line}: {kind}\n"


# Scripts.

def primary_key_in(field):
    """The key that a field spells, where it has 7 bytes at most."""
    key = key_in(field)
    if len(key) > 7:
        raise Bad("long")
    return key


# What each field of a line is read as, and of a script of two trees.
FIELDS = {
    b"insert": (key_in, number),
    b"delete": (key_in,),
    b"get": (key_in,),
    b"scan": (key_in, key_in),
    b"session": (number,),
    b"space": (number, number),
}
PAIR_FIELDS = {
    b"insert": (primary_key_in, number),
    b"delete": (primary_key_in,),
    b"get": (primary_key_in,),
    b"value": (number,),
    b"session": (number,),
    b"space": (number, number),
}


def script_line(line, is_first, known):
    word, *fields = line.split(b" ")
    if word not in known:
        raise Bad("word")
    if len(fields) != len(known[word]):
        raise Bad("fields")
    values = [read(field) for read, field in zip(known[word], fields)]
    if word == b"session" and not 1 <= values[0] <= 64:
        raise Bad("session")
    if word == b"space" and not (is_first and 16 <= values[0] <= 4096 and 8196 <= values[1] <= 16777216):
        raise Bad("space")
    return word.decode(), values


def written(value):
    return keys.text(value) if isinstance(value, bytes) else str(value)


def answered(pairs, log, made, session, word, values):
    """A command's line, and what the command makes of the map and the log."""
    place = len(log)
    key = values[0]
    line = f"{word} {' '.join(map(written, values))}"
    asked = f"{line} -> "
    if word == "get":
        return f"{asked}{pairs.get(key, 'none')} at {place}\n"
    if word == "value":
        found = sorted(k for k in pairs if pairs[k] == key)
        return f"{asked}{len(found)} keys\n" + (f"at {place}\n" if found else "") + "".join(f"key {written(k)}\n" for k in found)
    if word == "scan":
        low, high = values
        found = sorted(k for k in pairs if low <= k <= high)
        head = f"from {written(low)} to {written(high)} at {place}\n" if low <= high else ""
        return f"{asked}{len(found)} pairs\n{head}" + "".join(f"pair {written(k)} {pairs[k]}\n" for k in found)
    if word == "insert":
        reply = "duplicate" if key in pairs else "inserted"
    else:
        reply = f"deleted {pairs[key]}" if key in pairs else "missing"
    if reply not in ("duplicate", "missing"):
        made[session] = made.get(session, 0) + 1
        log.append(f"{session} {made[session]} {line}\n")
        if word == "insert":
            pairs[key] = values[1]
        else:
            del pairs[key]
    return f"{asked}{reply} at {place}\n"


def map_text(pairs):
    return f"map {len(pairs)}\n" + "".join(f"{written(key)} {pairs[key]}\n" for key in sorted(pairs))


def log_and_map(log, pairs):
    return f"log {len(log)}\n{''.join(log)}{map_text(pairs)}"


def second_text(pairs):
    seconds = sorted(pairs[key].to_bytes(8, "big") + key for key in pairs)
    return f"second {len(seconds)}\n" + "".join(f"{written(second)}\n" for second in seconds)


def run(data, known=None):
    """The status and the text; of a good script only what it prints where one session has commands and nothing gets full."""
    sessions, now, is_first = {}, 1, True
    for count, line in lines(data):
        try:
            word, values = script_line(line, is_first, known or FIELDS)
        except Bad as why:
            return refused(count, why)
        is_first = False
        if word == "session":
            now = values[0]
        elif word != "space":
            sessions.setdefault(now, []).append((word, values))
    pairs, log, made, text = {}, [], {}, ""
    for session in sorted(sessions):
        text += f"session {session}\n"
        for word, values in sessions[session]:
            text += answered(pairs, log, made, session, word, values)
    return 0, text + log_and_map(log, pairs) + (second_text(pairs) if known else "")


def pair(data):
    """The same of a script of two trees."""
    return run(data, PAIR_FIELDS)


# Events.

TAKES = ("s", "sx", "x")
PLAIN = ("us", "usx", "ux", "flag", "again", "sleep", "quit", "ready", "exarm", "look", "clear", "raise")


def event_line(line):
    fields = line.split(b" ")
    if len(fields) < 2:
        raise Bad("fields")
    session = number(fields[0])
    if not 1 <= session <= 64:
        raise Bad("session")
    word = fields[1].decode("latin-1")
    rest = fields[2:]
    if word not in TAKES and word not in PLAIN and word != "arm":
        raise Bad("word")
    if len(rest) != (2 if word in TAKES else 3 if word == "arm" else 1):
        raise Bad("fields")
    latch, mode, level = number(rest[0]), None, None
    if latch > 15:
        raise Bad("latch")
    if word == "arm":
        mode = rest[1].decode("latin-1")
        if mode not in TAKES:
            raise Bad("word")
    if word in TAKES or word == "arm":
        level = number(rest[-1])
        if not 1 <= level <= 5:
            raise Bad("level")
    return session, word, latch, mode, level


class Latch:
    """Who holds a latch, and its marks."""

    def __init__(self):
        self.held = {}
        self.waiters, self.generation, self.ex_generation = 0, 0, 0

    def of(self, session):
        return self.held.get(session, {"s": 0, "sx": 0, "x": 0})

    def word(self):
        word = FULL
        for counts in self.held.values():
            word -= counts["s"] + (HALF if counts["sx"] else 0)
            word -= 0 if not counts["x"] else FULL if counts["x"] == 1 else 2 * FULL + counts["x"] - 2
        return word

    def add(self, session, mode, count):
        counts = self.held.setdefault(session, {"s": 0, "sx": 0, "x": 0})
        counts[mode] += count
        if not any(counts.values()):
            del self.held[session]

    def is_owned(self):
        """Whether a grant of SX or X is there, or a next writer."""
        return any(counts["sx"] or counts["x"] for counts in self.held.values())

    def is_read_beside(self, session):
        return any(counts["s"] for other, counts in self.held.items() if other != session)


class Session:
    def __init__(self):
        self.levels = {}
        self.phase = ("free",)


BELONGS = {
    "free": TAKES + ("us", "usx", "ux", "arm"),
    "armed": ("flag", "quit"),
    "flagged": ("again", "quit"),
    "checked": ("sleep", "quit"),
    "asleep": ("sleep",),
    "next": ("ready", "exarm"),
    "next armed": ("ready",),
    "next checked": ("sleep",),
    "next asleep": ("sleep",),
    "owes look": ("look",),
    "owes clear": ("clear",),
    "owes raise": ("raise",),
    "owes raise ex": ("raise",),
}


class Machine:
    def __init__(self):
        self.latches = [Latch() for _ in range(16)]
        self.sessions = [Session() for _ in range(65)]

    def step(self, who, word, at, mode, level):
        session, latch = self.sessions[who], self.latches[at]
        name = session.phase[0]
        if word not in BELONGS[name] or (name != "free" and session.phase[1] != at):
            return "refused out of turn"
        if word in TAKES or word == "arm":
            return self.wish(who, word, at, mode, level)
        if word in ("us", "usx", "ux"):
            return self.give(who, word[1:], at)
        if word in ("flag", "again", "quit") or name in ("checked", "asleep"):
            return self.wait(who, word, at)
        if name.startswith("next"):
            return self.next(who, word, at)
        return self.owe(session, latch, at)

    def wish(self, who, word, at, mode, level):
        session, mine = self.sessions[who], self.latches[at].of(who)
        wanted = mode if word == "arm" else word
        if mine["s"] or ((word == "arm" or wanted == "s") and (mine["sx"] or mine["x"])):
            return "refused held already"
        if at not in session.levels:
            for held in session.levels.values():
                if not (level < held or level == held and level in (2, 4)):
                    return f"refused against {held} {level}"
        if word == "arm":
            generation = self.latches[at].generation
            session.phase = ("armed", at, mode, level, generation)
            return f"armed {generation}"
        return self.take(who, wanted, at, level)

    def take(self, who, mode, at, level):
        """Granted, reserved or busy, by who else is there."""
        session, latch = self.sessions[who], self.latches[at]
        mine = latch.of(who)
        owner = mine["sx"] or mine["x"]
        if mode == "s":
            may = not any(counts["x"] for counts in latch.held.values())
        else:
            may = owner or not latch.is_owned()
        if not may:
            return f"busy {latch.word()}"
        had = mine["x"]
        latch.add(who, mode, 1)
        session.levels.setdefault(at, level)
        if mode == "x" and not had and latch.is_read_beside(who):
            session.phase = ("next", at)
            return "reserved"
        session.phase = ("free",)
        return "granted"

    def give(self, who, mode, at):
        session, latch = self.sessions[who], self.latches[at]
        mine = latch.of(who)
        if not mine[mode]:
            return "refused not held"
        latch.add(who, mode, -1)
        left = latch.of(who)
        if not any(left.values()):
            del session.levels[at]
        if mode == "s":
            waits = any(counts["x"] for counts in latch.held.values())
            if waits and not any(counts["s"] for counts in latch.held.values()):
                session.phase = ("owes raise ex", at)
        elif not left["x"] and (mode == "x" or not left["sx"]):
            session.phase = ("owes look", at)
        return "released"

    def wait(self, who, word, at):
        session, latch = self.sessions[who], self.latches[at]
        rest = session.phase[1:]
        if word == "quit":
            session.phase = ("free",)
            return "quit"
        if word == "flag":
            latch.waiters = 1
            session.phase = ("flagged", *rest)
            return "flagged"
        if word == "again":
            answer = self.take(who, rest[1], at, rest[2])
            if answer.startswith("busy"):
                session.phase = ("checked", *rest)
            return answer
        return self.sleep(session, latch.generation, ("asleep", *rest), ("free",))

    def sleep(self, session, now, asleep, awake):
        if now == session.phase[-1]:
            session.phase = asleep
            return f"asleep {now}"
        session.phase = awake
        return f"awake {now}"

    def next(self, who, word, at):
        session, latch = self.sessions[who], self.latches[at]
        if word == "exarm":
            session.phase = ("next armed", at, latch.ex_generation)
            return f"armed {latch.ex_generation}"
        if word == "sleep":
            asleep = ("next asleep", at, session.phase[-1])
            return self.sleep(session, latch.ex_generation, asleep, ("next", at))
        if not latch.is_read_beside(who):
            session.phase = ("free",)
            return "granted"
        if session.phase[0] == "next armed":
            session.phase = ("next checked", *session.phase[1:])
        return f"not ready {latch.word()}"

    def owe(self, session, latch, at):
        name = session.phase[0]
        session.phase = ("free",)
        if name == "owes look":
            if latch.waiters:
                session.phase = ("owes clear", at)
            return f"waiters {latch.waiters}"
        if name == "owes clear":
            was, latch.waiters = latch.waiters, 0
            if was:
                session.phase = ("owes raise", at)
            return f"cleared {was}"
        if name == "owes raise":
            latch.generation += 1
            return f"signalled {latch.generation}"
        latch.ex_generation += 1
        return f"signalled {latch.ex_generation}"


def latch(data):
    events = []
    for count, line in lines(data):
        try:
            events.append((line, event_line(line)))
        except Bad as why:
            return refused(count, why)
    machine, text = Machine(), ""
    for line, event in events:
        answer = machine.step(*event)
        text += f"{line.decode()} -> {answer}, word {machine.latches[event[2]].word()}\n"
    return 0, text


# Logs.


def entry_fault(words, at, pages):
    """The first fault of the entry that begins at a word, or none and how many words it has."""
    here = words[at : at + HEAD]
    if len(here) < HEAD:
        return f"short at {at}", 0
    head, count, first, second, value = here
    session, flags, writes = head >> 32, head >> 16 & 0xFFFF, head & 0xFFFF
    if not 1 <= session <= 1024 or flags not in (1, 2, 5, 6) or not 1 <= writes <= 4095:
        return f"head at {at} word {head}", 0
    if not 1 <= count < 2**32:
        return f"head at {at} word {count}", 0
    if keys.key_of_words(first, second) is None:
        return f"head at {at} word {second}", 0
    if flags in (2, 6) and value:
        return f"head at {at} word {value}", 0
    end = at + HEAD + 2 * writes
    if len(words) < end:
        return f"short at {at}", 0
    places = words[at + HEAD : end : 2]
    for place, before in zip(places, [-1] + places):
        if place >= pages * WORDS:
            return f"outside at {at} word {place}", 0
        if place <= before:
            return f"write at {at} word {place}", 0
    if (flags in (5, 6)) != (len({place // WORDS for place in places}) > 1):
        return f"head at {at} word {head}", 0
    return None, end - at


class NoTree(Exception):
    """Why pages are no tree."""


def must(holds, why):
    if not holds:
        raise NoTree(why)


@lru_cache(4096)
def records_of(words):
    """The records of a page of the tree, whose words, a tuple, must be in its form."""
    kind, level, _, prev, behind = words[:5]
    must(kind == 1 and level <= 7, "head")
    must(prev < 2**32 and behind < 2**32 and (level == 0 or prev == behind == 0), "links")
    records = heaps.records(list(words))
    must(all(one[0] < two[0] for one, two in zip(records, records[1:])), "order of keys")
    return records


def tree_of(pages, count):
    """Where each page is met, as a level and the ends of its keys, and the records of the leaves; all pages but these are free."""
    must(not any(pages[0][65:]), "space page")
    bits = {64 * at + bit for at, word in enumerate(pages[0][:64]) if word for bit in range(64) if word >> bit & 1}
    met, content = {}, []
    visits, level = [(1, keys.LEAST, keys.END)], pages[1][1]
    while visits:
        below, before = [], 0
        for i, (page, low, high) in enumerate(visits):
            must(page not in met and page in pages, "a page met twice, or none")
            words = pages[page]
            records = records_of(tuple(words))
            firsts = [key for key, _ in records]
            must(words[1] == level and all(low <= key < high for key in firsts), "level or range")
            met[page] = (level, low, high)
            if level:
                must(firsts[:1] == [low], "first key")
                below += zip([child for _, child in records], firsts, firsts[1:] + [high])
            else:
                must(words[3] == before and words[4] == (visits[i + 1][0] if i + 1 < len(visits) else 0), "links")
                before, content = page, content + records
        visits, level = below, level - 1
    must(bits == {0, *met} and max(bits) < count, "bits")
    for page, words in pages.items():
        must(page == 0 or page in met or not any(words[:5] + words[6:]), "free page")
    return met, content


def is_tree_behind(met, pages, count, pairs, writes):
    """Where pages are met after an entry, or none where it leaves no tree of the map, or moves a page that it does not write."""
    written = {place // WORDS for place, _ in writes}
    try:
        now, content = tree_of(pages, count)
        must(0 not in now and content == sorted(pairs.items()), "content")
        must(all(met.get(page) == now.get(page) for page in {*met, *now} - written), "an unwritten page")
        return now
    except (NoTree, heaps.NoHeap):
        return None


def replay(data):
    if len(data) % 8:
        return 7, f"bad log: odd length {len(data)}\n"
    words = list(struct.unpack(f">{len(data) // 8}Q", data))
    if len(words) < 2:
        return 7, "bad log: short at 0\n"
    if words[0] != FORM:
        return 7, f"bad log: file at 0 word {words[0]}\n"
    if not 16 <= words[1] <= 4096:
        return 7, f"bad log: file at 1 word {words[1]}\n"
    count, words, at = words[1], words[2:], 0
    pairs, log, made, pages = {}, [], {}, new_space()
    met, _ = tree_of(pages, count)
    while at < len(words):
        fault, length = entry_fault(words, at, count)
        if fault:
            return 7, f"bad log: {fault}\n"
        head, number, first, second, value = words[at : at + HEAD]
        key = keys.key_of_words(first, second)
        session, flags = head >> 32, head >> 16 & 0xFFFF
        inserts = flags in (1, 5)
        if number != made.get(session, 0) + 1:
            return 7, f"bad log: unlawful at {at} number\n"
        if inserts == (key in pairs):
            return 7, f"bad log: unlawful at {at} change\n"
        made[session] = number
        if inserts:
            pairs[key] = value
            log.append(f"{session} {number} insert {written(key)} {value}\n")
        else:
            del pairs[key]
            log.append(f"{session} {number} delete {written(key)}\n")
        writes = list(zip(words[at + HEAD : at + length : 2], words[at + HEAD + 1 : at + length : 2]))
        for place, word in writes:
            pages.setdefault(place // WORDS, [0] * WORDS)[place % WORDS] = word
        met = is_tree_behind(met, pages, count, pairs, writes)
        if met is None:
            return 7, f"bad log: unlawful at {at} tree\n"
        at += length
    return 0, log_and_map(log, pairs)


# Image files.


def entries_of(words, pages):
    """The writes of each entry of a tail, or its first fault."""
    entries, at = [], 0
    while at < len(words):
        fault, length = entry_fault(words, at, pages)
        if fault:
            return None, fault
        entries.append(list(zip(words[at + HEAD : at + length : 2], words[at + HEAD + 1 : at + length : 2])))
        at += length
    return entries, None


def front_fault(numbers):
    """The first fault of the numbers in front of the pages."""
    if len(numbers) < 3:
        return f"short {len(numbers)}"
    for at, good in enumerate((numbers[0] == IMAGE, 16 <= numbers[1] <= 4096, numbers[2] < 2**32)):
        if not good:
            return f"word at {at} {numbers[at]}"
    return f"short {len(numbers)}" if len(numbers) < 3 + numbers[1] * (WORDS + 1) else None


def restored(pages, places, first, entries):
    """The pages with what the entries write on each from its own place on."""
    for number, writes in enumerate(entries, first):
        for place, word in writes:
            if number >= places[place // WORDS]:
                pages[place // WORDS][place % WORDS] = word
    return pages


def restore(data):
    if len(data) % 8:
        return 7, f"bad image: odd length {len(data)}\n"
    numbers = list(struct.unpack(f">{len(data) // 8}Q", data))
    fault = front_fault(numbers)
    if fault:
        return 7, f"bad image: {fault}\n"
    count, first = numbers[1:3]
    heads = [3 + page * (WORDS + 1) for page in range(count)]
    entries, fault = entries_of(numbers[3 + count * (WORDS + 1) :], count)
    if fault:
        return 7, f"bad image: tail {fault}\n"
    places = [numbers[at] for at in heads]
    for page, (at, place) in enumerate(zip(heads, places)):
        if not first <= place <= (first + len(entries) if page else first):
            return 7, f"bad image: word at {at} {place}\n"
    pages = restored({page: numbers[at + 1 : at + 1 + WORDS] for page, at in enumerate(heads)}, places, first, entries)
    try:
        met, content = tree_of(pages, count)
        must(0 not in met, "page 0 in the tree")
    except (NoTree, heaps.NoHeap):
        return 7, "bad image: not a tree\n"
    return 0, map_text(dict(content))


# Random inputs.


def a_number(dice, small):
    return dice.choice([dice.randrange(small), dice.randrange(small), dice.randrange(small), dice.choice([0, GREATEST, 2**63, 2**32])])


def a_key(dice, small):
    return keys.text(keys.some_key(dice, small))


def spoiled(dice, text):
    """The text with one byte put in, taken out or changed."""
    if not text:
        return text
    at, how = dice.randrange(len(text)), dice.randrange(3)
    byte = bytes([dice.choice(b" 0123456789\n#\r\tabsxug-+:._fFX\xff")])
    return text[:at] + (byte if how else b"") + text[at + (how != 1) :]


def some_script(dice):
    small, text = dice.choice([4, 30, 1000]), []
    if not dice.randrange(4):
        text.append(f"space {dice.choice([16, 64, 4096, 15])} {dice.choice([8196, 16384, 16777216, 16777217])}")
    for _ in range(dice.choice([0, 1, 5, 40, 200])):
        kind, key = dice.randrange(14), a_key(dice, small)
        text.append(
            f"insert {key} {a_number(dice, 1000)}" if kind < 5
            else f"delete {key}" if kind < 8
            else f"get {key}" if kind < 10
            else f"scan {key} {a_key(dice, small)}" if kind < 12
            else f"session {dice.choice([1, 2, 3, 64, dice.randrange(1, 65)])}" if kind < 13
            else dice.choice(["", "# a comment", "#"])
        )
    if text and not dice.randrange(4):
        text[dice.randrange(len(text))] = a_bad_line(dice, small)
    script = "\n".join(text).encode("latin-1") + dice.choice([b"", b"\n", b"\n\n"])
    return script if dice.randrange(3) else spoiled(dice, script)


def some_pair_script(dice):
    """A script of two trees; now and then a key has more than 7 bytes, or a line is one of a script of one tree."""
    lines = []
    for line in some_script(dice).split(b"\n"):
        word, *fields = line.split(b" ")
        if word == b"scan" and dice.randrange(60):
            line = f"value {a_number(dice, 1000)}".encode()
        elif word in (b"insert", b"delete", b"get") and fields and dice.randrange(60):
            try:
                fields[0] = keys.text(keys.key_in(fields[0])[:7]).encode()
            except keys.BadKey:
                pass
            line = b" ".join([word, *fields])
        lines.append(line)
    return b"\n".join(lines)


def a_bad_line(dice, small):
    """A line with a field that is no key, which mostly stands where a key is wanted."""
    key, bad = a_key(dice, small), keys.bad_field(dice)
    return dice.choice(
        [
            f"insert {bad} {a_number(dice, 1000)}",
            f"insert {bad} {dice.choice(['01', '-1', key])}",
            f"insert {key} {bad}",
            f"delete {bad}",
            f"get {bad}",
            f"scan {bad} {key}",
            f"scan {key} {bad}",
            f"get {bad} {key}",
            f"{bad} {key}",
            f"session {bad}",
        ]
    )


def some_events(dice):
    """Events that mostly follow the phases, on few latches, so that sessions meet."""
    machine, text = Machine(), []
    sessions, latches = dice.choice([2, 3, 5, 64]), dice.choice([1, 2, 3, 16])
    for _ in range(dice.choice([0, 5, 40, 400])):
        who = dice.randrange(1, sessions + 1)
        phase = machine.sessions[who].phase
        at = phase[1] if len(phase) > 1 else dice.randrange(latches)
        word = dice.choice(BELONGS[phase[0]])
        if not dice.randrange(12):
            word, at = dice.choice(TAKES + PLAIN + ("arm",)), dice.randrange(latches)
        mode = dice.choice(TAKES) if word == "arm" else None
        level = dice.choice([1 + (15 - at) % 5, dice.randrange(1, 6)]) if word in TAKES or word == "arm" else None
        machine.step(who, word, at, mode, level)
        text.append(" ".join(str(field) for field in (who, word, at, mode, level) if field is not None))
    events = "\n".join(text).encode() + dice.choice([b"", b"\n"])
    return events if dice.randrange(3) else spoiled(dice, events)


def some_tree(dice, pages):
    """Entries of a tree, in the middle of which one may be changed."""
    tree, there = Tree(), set()
    small = dice.choice([3, 12, 200])
    for _ in range(dice.choice([0, 1, 3, 20, 120])):
        key = keys.some_key(dice, small)
        if key in there:
            tree.delete(key)
        else:
            tree.insert(key, a_number(dice, 1000))
        there ^= {key}
    if tree.entries and dice.randrange(3):
        _, _, _, writes = dice.choice(tree.entries[-5:])
        writes[:] = sorted(changed(dice, dict(writes), pages).items())
    return tree.entries


def changed(dice, writes, pages):
    """The writes, of which one is left out, or has another word, or is new."""
    place, how = dice.choice(list(writes)), dice.randrange(3)
    if how == 0 and len(writes) > 1:
        del writes[place]
        return writes
    if how == 1:
        page = dice.choice([place // WORDS, place // WORDS, dice.randrange(min(pages, 20))])
        place = page * WORDS + dice.choice([dice.randrange(10), dice.randrange(WORDS)])
    word = writes.get(place, 0)
    writes[place] = dice.choice([0, 1, 2, 3, word + 1, word ^ 1 << dice.randrange(64), dice.choice(list(writes.values())), GREATEST]) & GREATEST
    return writes


def some_log(dice):
    pages, made, words, heads = dice.choice([16, 17, 4096]), {}, [], []
    for entry in some_tree(dice, pages):
        session = dice.choice([1, 2, 1024])
        heads += range(len(words), len(words) + HEAD)
        made[session] = made.get(session, 0) + 1
        words += entry_words(session, made[session], *entry)
    for _ in range(dice.choice([0, 0, 0, 1, 2]) if words else 0):
        at = dice.choice([dice.randrange(len(words)), dice.choice(heads)])
        words[at] = dice.choice([0, 1, words[at] + 1, words[at] ^ 1 << dice.randrange(64), words[dice.randrange(len(words))], GREATEST]) & GREATEST
    data = bytearray(file_of(pages, words))
    if not dice.randrange(10):
        data[dice.randrange(16)] ^= 1 << dice.randrange(8)
    return bytes(data[: dice.randrange(len(data) + 1)] if not dice.randrange(10) else data)


# The program beside them.


def differ(form, data, why):
    with tempfile.NamedTemporaryFile(prefix="input-", delete=False) as file:
        file.write(data)
    print(f"{form} < {file.name}: {why}")
    sys.exit(1)


def same(form, data, found, wanted):
    """Ends where the program and the model answer otherwise."""
    if found != wanted:
        lines = zip(found[1].decode("latin-1").split("\n"), wanted[1].decode("latin-1").split("\n"))
        first = next((f"; it prints {ours!r} for {theirs!r}" for ours, theirs in lines if ours != theirs), "")
        differ(form, data, f"the program ends with {found[0]}, the model with {wanted[0]}{first}")


def compare(form, model, make, dice, count):
    """How many inputs were answered and how many refused; ends at the first that the two answer otherwise."""
    refusals = 0
    for _ in range(count):
        data = make(dice)
        status, text = model(data)
        same(form, data, answer([form], data), (status, text.encode()))
        refusals += status != 0
    print(f"{form}: {count} inputs, {refusals} of them refused: the same")


def is_told_full(text):
    return any(b" -> log full " in line or b" -> space full " in line for line in text.split(b"\n"))


def compare_scripts(dice, count):
    """The form `run`, and what `raw` writes of the same scripts."""
    refusals, alone, full = 0, 0, 0
    for _ in range(count):
        data = some_script(dice)
        status, text = run(data)
        found = answer(["run"], data)
        if status != 0:
            same("run", data, found, (status, text.encode()))
            same("raw", data, answer(["raw"], data), (status, text.encode()))
            refusals += 1
            continue
        try:
            judge(data.decode("latin-1"), found[1].decode("latin-1"))
        except Wrong as wrong:
            differ("run", data, wrong)
        full += is_told_full(found[1])
        is_alone = len(commands_of(data.decode("latin-1"))[1]) < 2 and not is_told_full(found[1])
        alone += is_alone
        if is_alone:
            same("run", data, found, (0, text.encode()))
        status, log = answer(["raw"], data)
        if status != 0 or replay(log)[0] != 0:
            differ("raw", data, "what is written is no log")
        if is_alone:
            same("raw, replayed", data, answer(["replay"], log), (0, text[f"\n{text}".index("\nlog ") :].encode()))
    print(f"run, raw: {count} inputs, {refusals} of them refused; {alone} of one session the same, {full} with a full log or space, no difference")


def compare_pairs(dice, count):
    """The form `pair`."""
    refusals, alone, full = 0, 0, 0
    for _ in range(count):
        data = some_pair_script(dice)
        status, text = pair(data)
        found = answer(["pair"], data)
        if status != 0:
            same("pair", data, found, (status, text.encode()))
            refusals += 1
            continue
        try:
            judge_pairs(data.decode("latin-1"), found[1].decode("latin-1"))
        except Wrong as wrong:
            differ("pair", data, wrong)
        full += is_told_full(found[1])
        if len(commands_of(data.decode("latin-1"))[1]) < 2 and not is_told_full(found[1]):
            same("pair", data, found, (0, text.encode()))
            alone += 1
    print(f"pair: {count} inputs, {refusals} of them refused; {alone} of one session the same, {full} with a full log or space, no difference")


def some_image(dice):
    """A copy of a log that is mostly lawful, each page at a place of its own, and its tail; at times a number is changed."""
    count, made, words, entries = dice.choice([16, 17, 64]), {}, [], some_tree(dice, 16)
    first = dice.randrange(len(entries) + 1)
    places = [first]
    for _ in range(count - 1):
        places.append(dice.choice([places[-1], places[-1], dice.randrange(places[-1], len(entries) + 1)]))
    pages, copied = {page: [0] * WORDS for page in range(count)} | new_space(), {}
    for number, entry in enumerate([*entries, None]):
        copied.update({page: list(pages[page]) for page in range(count) if places[page] == number})
        if entry is not None:
            for place, word in entry[-1]:
                pages[place // WORDS][place % WORDS] = word
            made[1] = made.get(1, 0) + 1
            words.append(entry_words(1, made[1], *entry))
    numbers = [IMAGE, count, first]
    for page, place in enumerate(places):
        numbers += [place, *copied[page]]
    numbers += [word for entry in words[first:] for word in entry]
    for _ in range(dice.choice([0, 0, 0, 1, 2])):
        at = dice.choice([dice.randrange(len(numbers)), dice.randrange(3), 3 + dice.randrange(count) * (WORDS + 1), 3 + WORDS + 1 + dice.randrange(50)])
        numbers[at] = dice.choice([0, 1, numbers[at] + 1, numbers[at] ^ 1 << dice.randrange(64), dice.choice(numbers), GREATEST]) & GREATEST
    data = struct.pack(f">{len(numbers)}Q", *numbers)
    return data[: dice.randrange(len(data) + 1)] if not dice.randrange(10) else data


def some_load(dice):
    commands = dice.choice([1, 2, 7, dice.randrange(1, 400), dice.randrange(1, 3_000)])
    return commands, dice.choice([0, 1, 7, 2**32 - 1, dice.randrange(2**32)]), dice.choice([1, 2, 64, dice.randrange(1, 65)])


def counted(commands, seed, sessions):
    """What `gen` prints: no key is another session's, so each session's replies are its own."""
    counts = dict.fromkeys(("inserted", "duplicate", "deleted", "missing", "found", "none", "refused"), 0)
    left = 0
    for session in range(1, sessions + 1):
        mine = commands // sessions + (session <= commands % sessions)
        numbers = [(turn * 40503 + seed) % 65536 * 64 + session - 1 for turn in range(mine)]
        pairs = set()
        for turn in range(mine // 2):
            counts["duplicate" if numbers[turn] in pairs else "inserted"] += 1
            pairs.add(numbers[turn])
        for turn in range(mine - mine // 2):
            number = numbers[turn]
            if turn % 4 == 3:
                counts["found" if number in pairs else "none"] += 1
            else:
                counts["deleted" if number in pairs else "missing"] += 1
                pairs.discard(number)
        left += len(pairs)
    return "".join(f"{name} {count}\n" for name, count in counts.items()) + f"map {left}\n"


def compare_loads(dice, count):
    for _ in range(count):
        load = some_load(dice)
        words = ["gen", *map(str, load)]
        same(" ".join(words), b"", answer(words, b"not read"), (0, counted(*load).encode()))
    print(f"gen: {count} loads: the same")


def main():
    count = int(sys.argv[1]) if len(sys.argv) > 1 else 2000
    dice = random.Random(int(sys.argv[2]) if len(sys.argv) > 2 else 57)
    built()
    compare_scripts(dice, count)
    compare_pairs(dice, count)
    compare_loads(dice, count // 10)
    compare("latch", latch, some_events, dice, count)
    compare("replay", replay, some_log, dice, count)
    compare("restore", restore, some_image, dice, count // 2)
    return 0


if __name__ == "__main__":
    sys.exit(main())

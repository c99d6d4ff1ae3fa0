"""Judges what the form `pair` printed of a run, as judge.py does of `run`, and besides whether each `value` was told the keys that the map
has with that value, and whether the second tree has the second key of each pair of the map in the end.

This stands apart from the definitions that the proofs speak of. A second key is built here from its value's eight bytes and its key's.
"""

from bisect import bisect_left, bisect_right, insort
from collections import defaultdict

import keys
from judge import Book, key_of, map_lines, need, parts_of, replay, session_part


class PairBook(Book):
    """The map at a place of the log, and the keys of each value in their order."""

    def __init__(self):
        super().__init__(False)
        self.keys_of = defaultdict(list)

    def put(self, key, value):
        super().put(key, value)
        insort(self.keys_of[value], key)

    def take(self, key):
        value = super().take(key)
        held = self.keys_of[value]
        del held[bisect_left(held, key)]
        return value

    def holds(self, what):
        if what[0] == "keys":
            held, found = self.keys_of[what[1]], what[2]
            return held[bisect_left(held, found[0]) : bisect_right(held, found[-1])] == found
        if what[0] == "all":
            return self.keys_of[what[1]] == what[2]
        return super().holds(what)


def value_lines(alone):
    """Who reads the keys that a `value` was told: at places that rise, none before what was seen, and in their order. Between the first
    and the last of one place no key with the value is left out. A session that is alone sees the whole map."""

    def read(run, output, session, command, count, reach):
        value, place, found = int(command.split(" ")[1]), reach, []
        while output.starts("at "):
            at = int(output.take()[3:])
            need(at > place or (at == place and not found), f"places of `{command}` do not rise")
            place, part = at, []
            while output.starts("key "):
                part.append(key_of(output.take()[4:]))
            need(part, f"a place of `{command}` has no key")
            run.ask(at, ("keys", value, part))
            found += part
        need(found == sorted(set(found)), f"the keys of `{command}` do not rise")
        need(len(found) == count, f"`{command}` counts {count} of {len(found)} keys")
        if alone:
            run.ask(reach, ("all", value, found))
        return place

    return read


def second_key(key, value):
    return keys.text(value.to_bytes(8, "big") + key)


def judge_pairs(script, text):
    """Raises Wrong where the text is no output of the script. Answers how many entries the log has."""
    run, output, commands, (pairs, seconds) = parts_of(script, text, ("second",))
    scan = ("value", "keys", value_lines(len(commands) == 1))
    for session in sorted(commands):
        session_part(run, output, session, commands[session], scan)
    need(output.starts("log "), "lines before the log")
    book = PairBook()
    replay(run, book)
    need(pairs == map_lines(book.values), "the map is not what the log makes")
    expected = [second_key(key, value) for value in sorted(book.keys_of) for key in book.keys_of[value]]
    need(seconds == expected, "the second tree has not the second keys of the map")
    return len(run.log)

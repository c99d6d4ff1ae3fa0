"""The tree in the pages that a log file makes: a row for each level, a box for each page.

A box says the page's number, where its keys begin and end, how many of its places have records and how many were given up (its free
list). What the last entry wrote is shaded. Below stand the free pages. The pages are read by the scripts of bench/, apart from the
crates.
"""

import os
import struct
import sys

sys.path.insert(0, os.path.join(os.path.dirname(os.path.dirname(os.path.abspath(__file__))), "bench"))

import heaps
import keys
from svg import BadInput, Picture
from tree_logs import FORM, HEAD, WORDS, free_page, new_space

ROOT = 1
WIDTH, HEIGHT, GAP, ROW, LEFT, TOP = 196, 64, 24, 120, 16, 52
WRITTEN = "#fde9b8"


def words_of_file(data):
    """How many pages the space of a log file has, and the words of its entries."""
    if len(data) % 8 or len(data) < 16:
        raise BadInput("this is no log file: its length is not one of 64-bit words")
    form, pages, *words = struct.unpack(f">{len(data) // 8}Q", data)
    if form != FORM:
        raise BadInput("this is no log file: it does not begin with IBLOG572")
    return pages, words


def entries(words):
    """Each entry of the log: its session, its text, and its writes as pairs of a place and a word."""
    at = 0
    while at < len(words):
        if at + HEAD > len(words):
            raise BadInput(f"the entry at word {at} is cut off")
        head, number, first, second, value = words[at : at + HEAD]
        key = keys.key_of_words(first, second)
        end = at + HEAD + 2 * (head & 65535)
        if key is None or end > len(words):
            raise BadInput(f"the entry at word {at} has no key, or is cut off")
        change = f"insert {keys.text(key)} {value}" if head >> 16 & 1 else f"delete {keys.text(key)}"
        writes = list(zip(words[at + HEAD : end : 2], words[at + HEAD + 1 : end : 2]))
        yield f"change {number} of session {head >> 32}, {change}", writes
        at = end


def after(data, count):
    """The pages after so many entries of a log file, what the last of them is, and the pages that it wrote."""
    pages, words = words_of_file(data)
    memory, title, written, done = new_space(), "no entry", set(), 0
    for text, writes in entries(words):
        if done == count:
            break
        for place, word in writes:
            memory.setdefault(place // WORDS, free_page())[place % WORDS] = word
        done, title, written = done + 1, text, {place // WORDS for place, _ in writes}
    if count is not None and done < count:
        raise BadInput(f"the log has {done} entries")
    return pages, memory, f"after {done} entries: {title}", written


def bits(memory, pages):
    """The free pages: those of the space whose bit on page 0 is not set."""
    return [page for page in range(2, pages) if not memory[0][page // 64] >> page % 64 & 1]


class Visit:
    """A page of the tree, from which key on it may have keys and up to which, and the pages below it."""

    def __init__(self, memory, page, low, high):
        self.page, self.low, self.high = page, low, high
        self.words = memory[page]
        self.level, self.links = self.words[1], (self.words[3], self.words[4])
        self.heap, self.records = heaps.read(self.words), heaps.records(self.words)
        ends = [key for key, _ in self.records[1:]] + [high]
        starts = [low] + [key for key, _ in self.records[1:]]
        below = zip(self.records, starts, ends) if self.level else []
        self.below = [Visit(memory, child, start, end) for (_, child), start, end in below]

    def leaves(self):
        return sum(it.leaves() for it in self.below) if self.below else 1


def text_of(key):
    return "end" if key == keys.END else keys.text(key)


def draw(picture, visit, left, top_level, written):
    """Draws a page and what is below it, from a number of leaves on; answers the middle of its box."""
    width = visit.leaves() * (WIDTH + GAP)
    x, y = LEFT + left * (WIDTH + GAP) + (width - GAP - WIDTH) / 2, TOP + (top_level - visit.level) * ROW
    for it in visit.below:
        below = draw(picture, it, left, top_level, written)
        picture.line(x + WIDTH / 2, y + HEIGHT, below, y + ROW, ">")
        left += it.leaves()
    picture.box(x, y, WIDTH, HEIGHT, WRITTEN if visit.page in written else "white")
    freed = f", {len(visit.heap.free)} given up" if visit.heap.free else ""
    picture.words(x + 6, y + 16, f"page {visit.page}, level {visit.level}")
    picture.words(x + 6, y + 34, f"{text_of(visit.low)} .. {text_of(visit.high)}"[:26])
    picture.words(x + 6, y + 52, f"{len(visit.records)} of {heaps.MOST}{freed}")
    before, behind = visit.links
    if behind:
        picture.line(x + WIDTH, y + HEIGHT / 2, x + WIDTH + GAP, y + HEIGHT / 2, "<>" if before or behind else ">")
    return x + WIDTH / 2


def picture(data, count):
    pages, memory, title, written = after(data, count)
    drawn = Picture()
    try:
        root = Visit(memory, ROOT, keys.LEAST, keys.END)
    except (heaps.NoHeap, KeyError) as why:
        raise BadInput(f"the pages are no tree: {why}") from why
    drawn.words(LEFT, 24, title)
    draw(drawn, root, 0, root.level, written)
    free = bits(memory, pages)
    foot = TOP + root.level * ROW + HEIGHT + 28
    drawn.words(LEFT, foot, f"free: {len(free)} of {pages} pages" + (f", the next is page {free[0]}" if free else ""))
    drawn.box(LEFT, foot + 10, 14, 14, WRITTEN)
    drawn.words(LEFT + 22, foot + 21, "written by the last entry" + (" (page 0, the bits of the free pages, too)" if 0 in written else ""))
    return drawn.text()

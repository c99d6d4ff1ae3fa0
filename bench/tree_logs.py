"""Log files whose pages are a tree, made apart from the crates. Other scripts of this folder take their logs from here.

The pages are kept here as lists of words, and the inserts split pages and raise the root as the program's do. An entry is the words in
which the pages before it and after it differ.
"""

import struct

import heaps
import keys

PAGES, WORDS, MOST = 4096, heaps.WORDS, heaps.MOST
FORM = 0x49424C4F47353732
HEAD = 5
INSERT, DELETE, STRUCTURAL = 1, 2, 4


def free_page(clock=0):
    return [0] * 5 + [clock] + [0] * (WORDS - 6)


def new_space():
    """The first two pages of a new space; all others are free."""
    return {0: [3] + [0] * (WORDS - 1), 1: heaps.empty_page(0, 0, 0, 0)}


def entry_words(session, number, inserts, key, value, writes):
    """The words of an entry; writes are pairs of a place and a word."""
    flags = (INSERT if inserts else DELETE) | (STRUCTURAL if len({place // WORDS for place, _ in writes}) > 1 else 0)
    return [session << 32 | flags << 16 | len(writes), number, *keys.words_of(key), value, *(word for write in writes for word in write)]


def file_of(pages, words):
    """The bytes of a log file: each number has 64 bits, the highest byte first."""
    return struct.pack(f">{len(words) + 2}Q", FORM, pages, *words)


class Tree:
    """The pages of a space with one tree, and the entries that made them: what each changed and wrote."""

    def __init__(self):
        self.pages = new_space()
        self.next_free = 2
        self.entries = []
        self.touched = {}

    def edit(self, page):
        """A page that the entry writes: its clock goes on by one."""
        words = self.pages.setdefault(page, free_page())
        if page not in self.touched:
            self.touched[page] = list(words)
            words[64 if page == 0 else 5] += 1
        return words

    def records(self, page):
        return heaps.records(self.pages[page])

    def put(self, page, level, prev, next_page, records):
        """Fills a page anew, as each page is whose records move."""
        words = self.edit(page)
        words[1], words[3], words[4] = level, prev, next_page
        heaps.fill(words, records)

    def take_page(self):
        page = self.next_free
        self.next_free += 1
        self.edit(0)[page // 64] |= 1 << page % 64
        self.edit(page)
        return page

    def path(self, key):
        page, pages = 1, [1]
        while self.pages[page][1] > 0:
            page = [child for first, child in self.records(page) if first <= key][-1]
            pages.append(page)
        return pages

    def insert_into(self, path, record):
        page = path.pop()
        records = sorted(self.records(page) + [record])
        if len(records) <= MOST:
            heaps.insert(self.edit(page), *record)
        elif page == 1:
            self.raise_root(records)
        else:
            right = self.split(page, records)
            self.insert_into(path, (self.records(right)[0][0], right))

    def split(self, page, records):
        level, prev, next_page = self.pages[page][1], self.pages[page][3], self.pages[page][4]
        right = self.take_page()
        leaf = level == 0
        self.put(page, level, prev, right if leaf else 0, records[:18])
        self.put(right, level, page if leaf else 0, next_page if leaf else 0, records[18:])
        if leaf and next_page:
            self.edit(next_page)[3] = right
        return right

    def raise_root(self, records):
        level = self.pages[1][1]
        left, right = self.take_page(), self.take_page()
        leaf = level == 0
        self.put(left, level, 0, right if leaf else 0, records[:18])
        self.put(right, level, left if leaf else 0, 0, records[18:])
        self.put(1, level + 1, 0, 0, [(keys.LEAST, left), (records[18][0], right)])

    def commit(self, inserts, key, value):
        writes = []
        for page in sorted(self.touched):
            before, after = self.touched[page], self.pages[page]
            writes += [(page * WORDS + i, after[i]) for i in range(WORDS) if before[i] != after[i]]
        self.entries.append((inserts, key, value, writes))
        self.touched = {}

    def insert(self, key, value):
        self.insert_into(self.path(key), (key, value))
        self.commit(True, key, value)

    def delete(self, key):
        heaps.remove(self.edit(self.path(key)[-1]), key)
        self.commit(False, key, 0)

    def file(self):
        """The file of all entries, by session 1."""
        words = []
        for number, entry in enumerate(self.entries, 1):
            words += entry_words(1, number, *entry)
        return file_of(PAGES, words)


def log_of(inserts, changes):
    """The log file of so many inserts, of the keys of the numbers from 1 on in turn, and then of so many changes of the greatest: a delete
    and an insert in turn. Each of these changes writes a few words, so that the file stays below the program's limit.
    """
    tree = Tree()
    for number in range(1, inserts + 1):
        tree.insert(keys.of_number(number), number)
    last = keys.of_number(inserts)
    for _ in range(changes // 2):
        tree.delete(last)
        tree.insert(last, inserts)
    return tree.file()

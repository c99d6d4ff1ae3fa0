"""Pages as record heaps, apart from the crates: a page is a list of words, and its heap is read, changed and written back as a whole.

A record has four words: its head, the two words of its key (keys.py), and its value.

A record's head is the number of records that its slot owns, times 256, and the word of the next record; it owns none where it has no
slot. The directory names the records that have slots, in order; a slot owns its record and those before it back to the slot before.
"""

import keys

WORDS, MOST, RECORD = 160, 35, 4
FREE, TOP, DIRECTORY, INFIMUM, SUPREMUM, FIRST = 6, 7, 8, 18, 19, 20
MOST_SLOTS, MOST_OWNED, LEAST_OWNED = 10, 8, 4


class NoHeap(Exception):
    """Why words are no heap."""


def must(holds, why):
    if not holds:
        raise NoHeap(why)


class Heap:
    """The places of the chain, how many each of their slots owns, the same of the supremum, the free places, and the top."""

    def __init__(self):
        self.chain, self.owned, self.last, self.free, self.top = [], [], 1, [], FIRST

    def owner_from(self, at):
        """The first record from an index on that has a slot; the end of the chain stands for the supremum."""
        return next((i for i in range(at, len(self.chain)) if self.owned[i]), len(self.chain))

    def add(self, owner, count):
        if owner == len(self.chain):
            self.last += count
        else:
            self.owned[owner] += count

    def owns(self, owner):
        return self.last if owner == len(self.chain) else self.owned[owner]

    def put(self, at):
        """Takes a place for a record that is to stand at an index, and answers it."""
        place = self.free.pop(0) if self.free else self.top
        if place == self.top:
            self.top += RECORD
        self.chain.insert(at, place)
        self.owned.insert(at, 0)
        owner = self.owner_from(at)
        self.add(owner, 1)
        if self.owns(owner) > MOST_OWNED:
            self.owned[owner - self.owns(owner) + 4] = 4
            self.add(owner, -4)
        return place

    def take(self, at):
        """Gives up the place of the record at an index."""
        self.free.insert(0, self.chain[at])
        owned = self.owned[at]
        if owned:
            self.owned[at - 1] = owned
            at_owner = at - 1
        else:
            at_owner = self.owner_from(at)
        del self.chain[at], self.owned[at]
        owner = at_owner if owned else at_owner - 1
        self.add(owner, -1)
        if owner < len(self.chain) and self.owned[owner] < LEAST_OWNED:
            self.balance(owner)

    def balance(self, short):
        behind = self.owner_from(short + 1)
        self.owned[short] = 0
        if self.owns(behind) > LEAST_OWNED:
            self.owned[short + 1] = 4
            self.add(behind, -1)
        else:
            self.add(behind, 3)

    def write(self, words):
        nexts = self.chain[1:] + [SUPREMUM]
        words[2] = len(self.chain)
        words[FREE] = self.free[0] if self.free else 0
        slots = [INFIMUM, *(place for place, owned in zip(self.chain, self.owned) if owned), SUPREMUM]
        words[TOP] = len(slots) * 256 + self.top
        words[DIRECTORY : DIRECTORY + MOST_SLOTS] = slots + [0] * (MOST_SLOTS - len(slots))
        words[INFIMUM] = 256 + (self.chain + [SUPREMUM])[0]
        words[SUPREMUM] = self.last * 256
        for place, owned, behind in zip(self.chain, self.owned, nexts):
            words[place] = owned * 256 + behind
        for place, behind in zip(self.free, self.free[1:] + [0]):
            words[place] = behind


def empty_page(level, prev, behind, clock):
    words = [1, level, 0, prev, behind, clock] + [0] * (WORDS - 6)
    Heap().write(words)
    return words


def read(words):
    """The heap of a page of the tree, all of whose words must be in its form."""
    heap = Heap()
    count, slots = words[2], words[TOP] // 256
    heap.top, heap.last = words[TOP] % 256, words[SUPREMUM] // 256
    must(count <= MOST and FIRST <= heap.top <= FIRST + RECORD * MOST and (heap.top - FIRST) % RECORD == 0, "count or top")
    places = set(range(FIRST, heap.top, RECORD))
    at = words[INFIMUM] % 256
    for _ in range(count):
        must(at in places, "a record's place")
        places.remove(at)
        heap.chain.append(at)
        heap.owned.append(words[at] // 256)
        at = words[at] % 256
    must(at == SUPREMUM and words[INFIMUM] // 256 == 1 and words[SUPREMUM] % 256 == 0, "ends of the chain")
    at = words[FREE]
    while at:
        must(at in places, "a free place")
        places.remove(at)
        heap.free.append(at)
        at = words[at]
    must(not places, "a place in neither list")
    since = 0
    for owned in heap.owned:
        since += 1
        must(owned == 0 or (owned == since and LEAST_OWNED <= owned <= MOST_OWNED), "what a slot owns")
        since = 0 if owned else since
    must(heap.last == since + 1 and heap.last <= MOST_OWNED, "what the last slot owns")
    same = list(words)
    heap.write(same)
    must(same == words and 2 <= slots <= MOST_SLOTS, "directory")
    return heap


def records(words):
    found = [(keys.key_of_words(*words[place + 1 : place + 3]), words[place + 3]) for place in read(words).chain]
    must(all(key is not None for key, _ in found), "words that are no key")
    return found


def insert(words, key, value):
    heap, pair = read(words), list(keys.words_of(key))
    at = sum(words[place + 1 : place + 3] < pair for place in heap.chain)
    place = heap.put(at)
    heap.write(words)
    words[place + 1 : place + 4] = [*pair, value]


def remove(words, key):
    heap = read(words)
    heap.take([words[place + 1 : place + 3] for place in heap.chain].index(list(keys.words_of(key))))
    heap.write(words)


def fill(words, pairs):
    """An empty page with the same level, links and clock, into which the records were put one behind the other."""
    words[:] = empty_page(words[1], words[3], words[4], words[5])
    for key, value in pairs:
        insert(words, key, value)

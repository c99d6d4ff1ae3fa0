"""A latch's life, from the lines that `ib_tool latch` prints: a line a session, time from left to right, one step an event.

A bar is what a session holds: S, SX or X, with how often where it is more than once. A pale bar is a next writer that waits for
readers, a grey one a session asleep. What came of an event stands under its bars, and the lock word at the foot.
"""

import re

from svg import BadInput, Picture

LINE = re.compile(r"(\d+) (\w+) (\d+)((?: \w+)*) -> (.*), word (-?\d+)$")
STEP, ROW, LEFT, TOP, BAR = 92, 66, 90, 64, 22
MOST_TEXT = 12
WHOLE = 2**29
GREY = "#555"
COLOURS = {"s": "#bfe3c0", "sx": "#fbd99b", "x": "#f3b0a8"}
GIVES = {"us": "s", "usx": "sx", "ux": "x"}
RESERVED, ASLEEP = "#f9e3e0", "#d5d8de"


class Session:
    """What a session holds of the latch, and whether it is its next writer or asleep."""

    def __init__(self):
        self.held, self.next, self.asleep, self.wish = {"s": 0, "sx": 0, "x": 0}, False, False, None

    def step(self, event, fields, answer):
        """Takes an event and what it came to."""
        if event == "arm":
            self.wish = fields[0]
        mode = event if event in self.held else self.wish if event == "again" else None
        if answer == "granted" and event == "ready":
            self.next, self.held["x"] = False, self.held["x"] + 1
        elif answer == "granted" and mode:
            self.held[mode] += 1
        elif answer == "reserved":
            self.next = True
        elif answer == "released":
            self.held[GIVES[event]] -= 1
        self.asleep = answer.startswith("asleep")

    def bars(self):
        """The bars from this step on: their colours and texts."""
        bars = [(COLOURS[mode], mode.upper() + (f" {count}" if count > 1 else "")) for mode, count in self.held.items() if count]
        if self.next:
            bars.append((RESERVED, "next"))
        if self.asleep:
            bars.append((ASLEEP, "asleep"))
        return bars


def steps(text, latch):
    """The events on the latch: the session, the event with its fields, what it came to, and the lock word."""
    for number, line in enumerate(text.splitlines(), 1):
        found = LINE.match(line)
        if not found:
            raise BadInput(f"line {number} is none of those that `ib_tool latch` prints")
        session, event, at, fields, answer, word = found.groups()
        if int(at) == latch:
            yield int(session), event, fields.split(), answer, int(word)


def word_text(word):
    """A lock word by X_LOCK_DECR, which is W."""
    whole, rest = divmod(word + WHOLE // 4, WHOLE // 2)
    front = {0: "", 1: "W/2", 2: "W", -1: "-W/2", -2: "-W"}.get(whole, f"{whole / 2:g}W")
    rest -= WHOLE // 4
    if front and rest:
        return f"{front} {'-' if rest < 0 else '+'} {abs(rest)}"
    return front or str(rest)


def draw_bars(drawn, x, y, bars, are_told):
    for i, (colour, told) in enumerate(bars):
        height = BAR / len(bars)
        drawn.box(x, y + 6 + i * height, STEP, height, colour, colour)
        if are_told:
            drawn.words(x + 4, y + 3 + (i + 1) * height, told)


def draw_event(drawn, x, y, event, answer):
    """What a session did at a step, over its bars, and what came of it, under them."""
    drawn.line(x, y + 2, x, y + BAR + 8)
    drawn.words(x + 3, y, event[:MOST_TEXT])
    drawn.words(x + 3, y + BAR + 20, answer[:MOST_TEXT], fill=GREY)


def picture(text, latch):
    events = list(steps(text, latch))
    if not events:
        raise BadInput(f"there is no event on latch {latch}")
    sessions = {session: Session() for session in sorted({session for session, *_ in events})}
    tops = {session: TOP + row * ROW for row, session in enumerate(sessions)}
    drawn, foot = Picture(), TOP + len(sessions) * ROW
    drawn.words(12, 24, f"latch {latch}: {len(events)} events, from left to right")
    for session, y in tops.items():
        drawn.words(12, y + 20, f"session {session}")
    drawn.words(12, foot + 16, "lock word")
    for at, (session, event, fields, answer, word) in enumerate(events):
        x = LEFT + at * STEP
        drawn.line(x, TOP - 16, x, foot + 20, stroke="#e5e5e5")
        sessions[session].step(event, fields, answer)
        for other, y in tops.items():
            draw_bars(drawn, x, y, sessions[other].bars(), other == session)
        draw_event(drawn, x, tops[session], " ".join([event, *fields]), answer)
        drawn.words(x + 3, foot + 16, word_text(word), fill=GREY)
    drawn.words(12, foot + 44, f"W is X_LOCK_DECR, {WHOLE}: the word of a latch that nobody holds; S takes 1 off, SX half of W, X all of it")
    return drawn.text()

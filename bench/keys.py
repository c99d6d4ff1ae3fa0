"""Keys, apart from the crates: a key is 0 to 15 bytes, as a Python `bytes`, whose own order is theirs: byte by byte, a prefix first.

A key is written as it is where it is 1 to 15 letters, digits, `_` or `.`, and else as `x:` and two hexadecimal digits for each byte. In
pages and logs it is two words: its bytes with zeros behind them, up to 15, and how many they are as the sixteenth.
"""

import string

MOST = 15
LEAST, GREATEST = b"", b"\xff" * MOST
# Above every key.
END = b"\xff" * (MOST + 1)
PLAIN = frozenset((string.ascii_letters + string.digits + "_.").encode())
DIGITS = "0123456789abcdef"


class BadKey(Exception):
    """A field that is no key."""


def is_plain(key):
    return len(key) > 0 and PLAIN.issuperset(key)


def text(key):
    return key.decode() if is_plain(key) else "x:" + "".join(DIGITS[byte >> 4] + DIGITS[byte & 15] for byte in key)


def key_in(field):
    """The key that a field spells, which is text or bytes."""
    written = field.encode() if isinstance(field, str) else field
    if not written.startswith(b"x:"):
        if len(written) > MOST or not is_plain(written):
            raise BadKey(field)
        return written
    digits = [DIGITS.find(chr(it)) for it in written[2:]]
    if len(digits) % 2 or len(digits) > 2 * MOST or -1 in digits:
        raise BadKey(field)
    key = bytes(high << 4 | low for high, low in zip(digits[::2], digits[1::2]))
    if is_plain(key):
        raise BadKey(field)
    return key


def words_of(key):
    both = int.from_bytes(key + bytes(MOST - len(key)) + bytes([len(key)]), "big")
    return both >> 64, both & 2**64 - 1


def key_of_words(first, second):
    """The key of two words, or none where they are no key's."""
    length = second & 255
    padded = (first << 64 | second).to_bytes(16, "big")[:MOST]
    if length > MOST or any(padded[length:]):
        return None
    return padded[:length]


def of_number(number):
    return number.to_bytes(8, "big")


def numbered(number):
    """The text of the key of a number's 8 bytes: a greater number has a greater key."""
    return text(of_number(number))


def after(key):
    """The next key, or none behind the greatest."""
    if len(key) < MOST:
        return key + b"\0"
    front = key.rstrip(b"\xff")
    return front[:-1] + bytes([front[-1] + 1]) if front else None


# Keys for scripts and logs. Each stands for a number: small numbers have keys of every length, many of which begin alike.

EDGES = (
    *(LEAST, GREATEST, b"\xff" * 14 + b"\xfe", b"\xff" * 14, b"\xff" * 8, b"\xff", b"\0", b"\0" * 8, b"\0" * 14 + b"\xff", b"\0" * 15),
    *(b"k", b"k\0", b"k\0\0", b"x:", b"x:6b", b"prefix__", b"prefix__\0", b"prefix__zzzzzzz", b"_.", b"-", b"log", b"map", b"session"),
)
FORMS = (
    lambda n: b"%d" % n,
    lambda n: b"prefix__" + n.to_bytes(4, "big"),
    lambda n: b"prefix__%07d" % n,
    lambda n: b"\xff" * 12 + (2**24 - 3 - n).to_bytes(3, "big"),
    lambda n: of_number(n << 8 | 1),
    lambda n: b"k%06d" % n,
    lambda n: b"pre" + n.to_bytes(3, "little"),
    lambda n: b"\0" * 8 + n.to_bytes(3, "big") + b"\0" * (n % 5),
)


def nth(number):
    """The key that stands for a number; no other number below 8,000,000 has it."""
    if number < len(EDGES):
        return EDGES[number]
    number -= len(EDGES)
    return FORMS[number % len(FORMS)](number // len(FORMS))


def some_key(dice, small):
    """Mostly one of few keys, else one of any length."""
    if dice.randrange(6):
        return nth(dice.randrange(small))
    letters = dice.choice([b"ab", b"a_.Z9", b"\0\1\xff", bytes(range(256))])
    return bytes(dice.choice(letters) for _ in range(dice.randrange(MOST + 1)))


def bad_field(dice):
    """A field, without a space, that spells no key."""
    hexed = some_key(dice, 60).hex()
    return dice.choice(
        [
            "a" * dice.randrange(16, 40),
            "x:" + "00" * dice.randrange(16, 40),
            "x:" + hexed + dice.choice(DIGITS),
            "x:" + (hexed + "ab").upper(),
            "x:" + hexed + dice.choice(["0g", "-1", "0:", "zz"]),
            "x:" + dice.choice([b"k", b"10", b"_.", b"a" * 15]).hex(),
            dice.choice(["-1", "+1", "a-b", "k:6b", "X:00", "x;00", ":", "a/b", "\t", "1\r", "\xe9", "\xff", ""]),
        ]
    )

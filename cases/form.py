"""The form in which the programs of cases are given calls on buffers, and in which they print the replies.

A case is a title, a buffer, a name file and calls, made in turn on these. The program prints the title and
both digests, then the reply to each call.
"""
import struct
from functools import lru_cache

from texts import CONTEXTS, NO_MEMBER, name

# What the programs have room for; the room of a call that writes is by its letter.
MOST_BYTES, MOST_ARGUMENTS, MOST_IN_HEX, MOST_CALLS = 65537, 1024, 1024, 1000
MOST_ROOM = {"l": 1599000, "a": 1599000, "L": 1599000, "A": 1599000, "m": 65900}


def ending(content):
    """The byte that some bytes end in, and all before that byte's last run."""
    last = content[-1:] or b"\0"
    return last, content.rstrip(last)


def start(buffer):
    """A buffer by its length, the byte that it ends in, and all before that byte's last run."""
    last, given = ending(buffer)
    return struct.pack("<IcI", len(buffer), last, len(given)) + given


def record(thread, number, offset, called):
    """What is given to write a record; its name as a buffer is given, but for how many bytes come, which the arguments' length tells."""
    assert len(called) <= MOST_BYTES
    last, given = ending(called)
    return struct.pack("<BIQIc", thread, number, offset, len(called), last) + given


# A call's arguments as the programs read them, by the call's letter.
ARGUMENTS = {
    "c": lambda: b"",
    "p": lambda first, step: struct.pack("<II", first, step - 1),
    "e": lambda position: struct.pack("<Q", position),
    "n": lambda pointer: struct.pack("<I", pointer),
    "l": lambda reading, position, room: struct.pack("<IIQQI", *reading, position, room),
    "a": lambda reading, room: struct.pack("<IIQI", *reading, room),
    "f": lambda given: struct.pack("<BIIHQ", given.order == ">", *given[1:]),
    "w": lambda words: struct.pack("<8I", *words),
    "o": lambda thing, called: struct.pack("<BIII2s", *thing) + called,
    "x": lambda pointer: struct.pack("<I", pointer),
    "m": lambda room: struct.pack("<I", room),
    "b": lambda: b"",
    "r": record,
}
# The calls with the case's name file take the same.
ARGUMENTS.update({letter.upper(): ARGUMENTS[letter] for letter in "enla"})


@lru_cache(maxsize=64)
def digest(content):
    """The bytes as digits to the base 511, modulo a prime before each step."""
    total = 1
    for b in content:
        total = total % 36028797018963913 * 511 + b
    return total


def called(found):
    """A name's text and its kind, or that there is none."""
    return name(None) if found is None else f"{name(found.bytes)} {found.kind}"


def found_name(found):
    """The reply to finding a name: with its length, and its place in the dump or the name file where there is one."""
    return f"{called(found)} 0" if found is None else f"{called(found)} {len(found.bytes)} {found.place}"


def shown_event(event):
    """The reply to asking for one event by its position; with a name file also its own name."""
    own = [] if event.own is NO_MEMBER else [called(event.own)]
    return " ".join([*map(str, event.words), str(event.ticks), CONTEXTS[event.by], called(event.name), *own])


def written(text):
    """The reply to a call that wrote a text and changed nothing past it, but for the last line's end."""
    return f"{len(text)} 0\n{text}"[:-1]


def mended(copy, counts, checked):
    """The reply to a call that wrote a copy and changed nothing past it: six counts, and what the check says of it."""
    return f"{len(copy)} {' '.join(map(str, counts))} 0 {digest(copy)}\n{checked}"


def packed(letter, given):
    arguments = ARGUMENTS[letter](*given)
    assert len(arguments) <= MOST_ARGUMENTS and (letter not in MOST_ROOM or given[-1] <= MOST_ROOM[letter])
    return struct.pack("<cH", letter.encode(), len(arguments)) + arguments


class Cases:
    """A file of cases, and what must be printed for it."""

    def __init__(self):
        self.data, self.printed, self.count = bytearray(), [], 0

    def add(self, title, buffer, calls, names=b""):
        """Puts in a case. A call is its letter, what is given, and the reply without its last line's end."""
        assert 0 < len(title) < 200 and max(len(buffer), len(names)) <= MOST_BYTES and len(calls) <= MOST_CALLS
        self.count += 1
        self.data += struct.pack("B", len(title)) + title.encode() + start(buffer) + start(names)
        self.printed.append(f"{title}: {digest(buffer)} {digest(names)}\n")
        for letter, given, reply in calls:
            self.data += packed(letter, given)
            self.printed.append(f"{reply}\n")
        self.data += b"."

    def told(self, kind):
        """A line on what was made."""
        return f"{kind}: {self.count} cases, {len(self.printed) - self.count} calls, {len(self.data)} bytes"

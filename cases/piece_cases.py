"""The dumps that the program `cases` is fed in pieces, and what it must print.

Written from documents 01 and 02 (A4) and not from our code. However a dump is cut, the answer is that
of the whole: each case says by hand the refusal, or the number of events where the dump passes, and
`answer` of dumps.py must agree. A call gives the first piece's length and that of those behind it;
between the first and the others comes an empty one.
"""
import sys

from dumps import WORDS, Dump, answer, bad_type, broken, changed, no_id
from form import Cases

# One piece behind the first, whatever the dump's length.
REST = 65537

# Where the header's fields start, and its end; with three entries of 24 bytes and four slots, where these start, and the end.
FIELDS = [0, 4, 8, 12, 16, 18, 20, 24, 28, 32, 36, 40, 44, 48]
BOUNDARIES = [48, 72, 96, 120, 152, 184, 216, 248]

cases = Cases()


def case(name, expected, dump, cuts):
    """A case in both orders: a refusal as 'number place', or the event count of a dump that passes; and how it is cut."""
    for order, word in WORDS.items():
        raw = dump.bytes(order)
        given = answer(raw)
        by_hand = given == expected if isinstance(expected, str) else (given.split()[0], given.split()[-1]) == (word, str(expected))
        if not by_hand:
            sys.exit(f"{name}, {word}: by hand {expected}, by rule {given}")
        cases.add(f"{name}, {word}", raw, [("p", cut, given) for cut in cuts])


def once(places):
    """Two pieces, with an empty one between them."""
    return [(place, REST) for place in places]


def sound():
    dump = Dump().use(0, 1).at(2)
    case("whole, then nothing", 2, dump, [(248, REST)])
    case("nothing, then the whole", 2, dump, [(0, REST)])
    case("cut within each field of the header", 2, dump, once(at + by for at in FIELDS[:-1] for by in (1, 2, 3)))
    case("cut between the fields of the header", 2, dump, once(FIELDS))
    case("cut between a flag and a type", 2, dump, once((49, 73, 97)))
    case("cut at each boundary", 2, dump, once(BOUNDARIES))
    case("cut next to each boundary", 2, dump, once(at + by for at in BOUNDARIES[:-1] for by in (-1, 1)))
    case("cut within the words of a slot", 2, dump, once(range(120, 153)))
    case("cut at every place", 2, dump, once(range(249)))
    case("pieces of every length", 2, dump, [(0, step) for step in range(1, 249)])
    case("pieces of a slot's length, from every place on", 2, dump, [(first, 32) for first in range(120, 153)])


def lengths():
    case("no bytes", "1 0", changed(Dump(), cut=0), [(0, REST)])
    case("47 bytes", "1 0", changed(Dump(), cut=47), [(0, 1), (46, 1), (47, 1)])
    full = changed(Dump(entries=0, slots=2046).use(*range(2046)), cut=65536)
    many = [(0, 1), (0, 31), (0, 32), (0, 33), (0, 64), (0, 1024), (16, 1024), (48, 32), (65535, REST)]
    case("65,536 bytes", 2046, full, many)
    case("65,537 bytes", "2 0", changed(full, cut=65537), many + [(65536, REST)])
    case("65,537 bytes with a bad id", "2 0", changed(Dump(), cut=65537, id=0), [(0, 1), (65536, REST)])
    case("bytes past the buffer end", 1, changed(Dump().use(0).at(1), tail=b"\xff" * 77), once(range(240, 326)) + [(0, 1)])


def cut_short():
    """26 at both ends: the dump's last byte comes in a piece of its own, or with all others."""
    for length, expected in ((48, "26 72"), (119, "26 1"), (120, "26 128"), (247, "26 1")):
        case(f"stopped after {length} bytes", expected, changed(Dump().use(0, 1).at(2), cut=length), [(0, 1), (length - 1, 1), (length, 1), (0, 7)])


def turns():
    """Whether the slot at current is used is known before the slot at fault has come, or only after it."""
    everywhere = once(range(120, 249)) + [(0, step) for step in (1, 5, 31, 32, 33)]
    for used, current, expected in (
            ([0, 1, 2, 3], 2, 4), ([], 0, 0), ([0, 1, 2], 3, 3), ([0, 1, 3], 3, "12 2"), ([1, 2, 3], 3, "12 0"), ([0, 1], 3, "12 2"),
            ([0, 2], 2, "12 1"), ([0, 2], 1, "12 2"), ([0, 3], 1, "12 3"), ([3], 0, "12 3"), ([1, 3], 2, "12 0"), ([0, 1, 2], 1, "12 3"),
            ([0, 1, 2], 0, "12 3"), ([0], 0, "12 1")):
        case(f"used {used}, current {current}", expected, Dump().use(*used).at(current), everywhere)


def refused():
    for expected, name, dump in broken():
        length = len(dump.bytes("<"))
        case(f"refused: {name}", expected, dump, [(0, 1), (0, 13), (length // 2, REST), (length, REST)])
    case("two bad types give the lower", "11 1", bad_type(1, 2), once(range(48, 121)))
    case("two ids 0 give the lower", "13 1", no_id(1, 2), once(range(120, 249)))


for group in (sound, lengths, cut_short, turns, refused):
    group()

"""The dumps that the program `cases` mends, and what it must print.

The answers and the copies come from mender.py, which is written from documents 01 and 02 and not from our
code. A named case also says by hand the refusal, or the six counts and the whole copy, field by field; the
two must agree, or nothing is written. The seeded cases have mender.py's word alone. Every copy must pass the
check in dumps.py, and a dump that passes it must be kept. Of some copies it is also asked which names they hold.
"""
import json
import sys
from collections import namedtuple

from dumps import (ALARM, INIT, ISR, PUMP, VALVE, WORDS, Dump, Refused, answer, broken, changed, damage, entry, shifted,
                   slot)
from form import MOST_IN_HEX, MOST_ROOM, Cases, found_name, mended, written
from made import Chance
from mender import mend
from reader import Reading, find_name, listing

# Where the slots start behind the three entries that most cases have; four slots end at offset 248.
START = 0x20000000 + 120

# The six counts where nothing is mended.
NOTHING = "0 0 0 0 0 0"

# More room than any copy takes.
PLENTY = MOST_ROOM["m"]

# A step is a call and its answer by hand, or none where the case is seeded. Of a call that mends it is the refusal,
# or the counts and the dump that the copy must be; of a listing the names in its lines, each with whether it is gone.
Case = namedtuple("Case", "name dump steps")
CASES = []


def case(name, dump, *steps):
    """A case in both orders."""
    CASES.append(Case(name, dump, steps))


# The calls.

def mending(room):
    return "m", (room,)


def naming(pointer):
    return "n", (pointer,)


CHECKED, ALL_BYTES, LISTED = ("c", ()), ("b", ()), ("a", (Reading(1000000, 0, 0), 4096))


def mends(name, dump, counts, copy):
    """A dump that is mended, in just the room that the copy takes."""
    case(name, dump, (mending(len(copy.bytes("<"))), (counts, copy)))


def refuses(name, dump, refusal):
    """A dump that is refused, whatever the room."""
    case(name, dump, (mending(PLENTY), refusal), (mending(0), refusal))


# What dumps hold.

def event(number):
    """A used slot, of words that no other event has."""
    return slot(PUMP + 257 * number, 16 + number, number, 1000 + number, [0x01010101 * number + i for i in range(4)])


def lost(number):
    """The event with id 0."""
    return [*event(number)[:2], 0, *event(number)[3:]]


def old(number):
    """The event's words in an unused slot."""
    return [0, *event(number)[1:]]


def valve(flag, kind):
    """An entry that has all fields."""
    return entry(VALVE, b"valves!!", flag, kind, b"\xab\xcd", 0x01020304, ISR)


THREAD, FREE = entry(PUMP, b"pump", spare=b"\x12\x34", one=7, two=8), entry(ALARM, b"gone", flag=1, kind=99)
ENTRIES = (THREAD, valve(2, 14), FREE)


def ring(*slots, at=0, entries=ENTRIES, size=8, base=0x20000000, **fields):
    """A dump of these slots: an event by its number, 0 for a slot of zeros, or the words themselves."""
    words = [one if isinstance(one, list) else event(one) if one else [0] * 8 for one in slots]
    dump = Dump(len(entries), len(slots), size, base).at(at)
    return changed(dump, slots=words, entries=list(entries), **fields)


EMPTY = ring(0, 0, 0, 0)


# The cases.

def sound():
    """Kept up to the buffer end, with six zeros."""
    rows = {
        "empty ring": EMPTY, "smallest dump": ring(0, entries=()), "one slot, used": ring(1, entries=()),
        "one of two slots used": ring(1, 0, at=1), "one used": ring(1, 0, 0, 0, at=1),
        "part full": ring(1, 2, 0, 0, at=2), "all but one used": ring(1, 2, 3, 0, at=3), "full ring": ring(1, 2, 3, 4),
        "gone round by 1": ring(4, 1, 2, 3, at=1), "gone round by 2": ring(3, 4, 1, 2, at=2),
        "gone round by 3": ring(2, 3, 4, 1, at=3), "no entries": ring(1, 0, at=1, entries=()),
        "entries all free": ring(1, 0, at=1, entries=[FREE] * 3),
        "unused slots have words": ring(1, old(2), old(3), slot(0, ident=0), at=1),
        "empty ring, slots have words": ring(old(1), old(2), slot(0, ident=0), old(4)),
    }
    for title, dump in rows.items():
        mends(title, dump, NOTHING, dump)
    for length in (1, 31, 32, 33, 77):
        mends(f"part full, {length} bytes past the end", ring(1, 2, 0, 0, at=2, tail=b"\xff" * length), NOTHING,
              ring(1, 2, 0, 0, at=2))
    mends("gone round, more events past the end", ring(2, 3, 1, 4, 5, at=2, buffer_end=START + 96), NOTHING,
          ring(2, 3, 1, at=2))
    mends("part full, more events past the end", ring(1, 0, 2, 3, at=1, buffer_end=START + 64), NOTHING,
          ring(1, 0, at=1))
    mends("one slot, more events past the end", ring(1, 2, 3, 4, buffer_end=START + 32), NOTHING, ring(1))
    for ident in (1, 1024, 1025, ISR):
        mends(f"event id {ident}", ring(slot(ident=ident), 0, at=1), NOTHING, ring(slot(ident=ident), 0, at=1))
    for pointer in (1, 0x01000000, INIT, ISR):
        mends(f"thread pointer {pointer:#x}", ring(slot(pointer), 0, at=1), NOTHING, ring(slot(pointer), 0, at=1))


def missing():
    """A slot that is not wholly there becomes zeros. Slots begin at 120, 152, 184 and 216; the last ends at 248."""
    rows = [
        ("part full", (1, 2, 0, 0), 2, {
            (249, 248): (NOTHING, ring(1, 2, 0, 0, at=2)),
            (247, 217, 216): ("1 0 0 0 0 0", ring(1, 2, 0, 0, at=2)),
            (215, 185, 184): ("2 0 0 0 0 0", ring(1, 2, 0, 0, at=2)),
            (183, 153, 152): ("3 0 0 0 1 0", ring(1, 0, 0, 0, at=1)),
            (151, 121, 120): ("4 0 0 0 1 0", EMPTY)}),
        ("full ring", (1, 2, 3, 4), 0, {
            (249, 248): (NOTHING, ring(1, 2, 3, 4)),
            (247, 217, 216): ("1 0 0 0 1 0", ring(1, 2, 3, 0, at=3)),
            (215, 185, 184): ("2 0 0 0 1 0", ring(1, 2, 0, 0, at=2)),
            (183, 153, 152): ("3 0 0 0 1 0", ring(1, 0, 0, 0, at=1)),
            (151, 121, 120): ("4 0 0 0 0 0", EMPTY)}),
        ("gone round by 1", (4, 1, 2, 3), 1, {
            (247, 216): ("1 0 0 0 1 3", ring(1, 2, 4, 0, at=3)),
            (215, 184): ("2 0 0 0 1 2", ring(1, 4, 0, 0, at=2)),
            (183, 152): ("3 0 0 0 0 0", ring(4, 0, 0, 0, at=1)),
            (151, 120): ("4 0 0 0 1 0", EMPTY)}),
        ("gone round by 2", (3, 4, 1, 2), 2, {
            (247, 216): ("1 0 0 0 1 3", ring(1, 3, 4, 0, at=3)),
            (215, 184): ("2 0 0 0 0 0", ring(3, 4, 0, 0, at=2)),
            (183, 152): ("3 0 0 0 1 0", ring(3, 0, 0, 0, at=1)),
            (151, 120): ("4 0 0 0 1 0", EMPTY)}),
        ("gone round by 3", (2, 3, 4, 1), 3, {
            (247, 216): ("1 0 0 0 0 0", ring(2, 3, 4, 0, at=3)),
            (215, 184): ("2 0 0 0 1 0", ring(2, 3, 0, 0, at=2)),
            (183, 152): ("3 0 0 0 1 0", ring(2, 0, 0, 0, at=1)),
            (151, 120): ("4 0 0 0 1 0", EMPTY)}),
        ("empty ring", (0, 0, 0, 0), 0, {
            (247, 216): ("1 0 0 0 0 0", EMPTY),
            (121, 120): ("4 0 0 0 0 0", EMPTY)}),
    ]
    for title, slots, at, cuts in rows:
        for lengths, (counts, copy) in cuts.items():
            for length in lengths:
                mends(f"{title}, cut to {length} bytes", ring(*slots, at=at, cut=length), counts, copy)
    for length, counts, copy in ((81, NOTHING, ring(1, entries=())), (80, NOTHING, ring(1, entries=())),
                                 (79, "1 0 0 0 0 0", ring(0, entries=())), (49, "1 0 0 0 0 0", ring(0, entries=())),
                                 (48, "1 0 0 0 0 0", ring(0, entries=()))):
        mends(f"no entries, one slot, cut to {length} bytes", ring(1, entries=(), cut=length), counts, copy)
    mends("no entries, the header alone there", ring(1, 2, 3, at=1, entries=(), cut=48), "3 0 0 0 1 0",
          ring(0, 0, 0, entries=()))
    mends("an unused slot that has words, cut", ring(1, old(2), old(3), at=1, cut=215), "1 0 0 0 0 0",
          ring(1, old(2), 0, at=1))
    mends("a slot more than there is", ring(1, 2, 3, at=1, buffer_end=START + 128), "1 0 0 0 1 3",
          ring(2, 3, 1, 0, at=3))
    mends("a slot more than there is, current there", ring(1, 2, 3, at=3, buffer_end=START + 128), "1 0 0 0 0 0",
          ring(1, 2, 3, 0, at=3))
    mends("a slot more than there is but for a byte", ring(1, 2, 3, buffer_end=START + 128, tail=b"\xff" * 31),
          "1 0 0 0 1 0", ring(1, 2, 3, 0, at=3))


# What is no slot of four, by how far it lies from the start.
NO_SLOT = {
    "one slot before the start": -32, "one byte before the start": -1, "one byte past the start": 1,
    "half a slot past the start": 16, "one byte before slot 1": 31, "one byte past slot 3": 97,
    "one byte before the end": 127, "at the end": 128, "one byte past the end": 129, "a slot past the end": 160,
    "at the registry start": -72, "at the base": -120, "one byte before the base": -121, "pointer 0": -START,
    "pointer 0xffffffff": ISR - START, "two to the 16 past the start": 1 << 16, "two to the 31 past the start": 1 << 31,
}


def currents():
    """A current that is no slot becomes the start."""
    for title, by in NO_SLOT.items():
        away = dict(current=START + by)
        mends(f"current {title}, empty ring", ring(0, 0, 0, 0, **away), "0 1 0 0 0 0", EMPTY)
        mends(f"current {title}, full ring", ring(3, 4, 1, 2, **away), "0 1 0 0 0 0", ring(3, 4, 1, 2))
        mends(f"current {title}, part full", ring(1, 2, 0, 0, **away), "0 1 0 0 1 0", ring(1, 2, 0, 0, at=2))
    away = dict(current=START - 32)
    mends("bad current, slot 0 unused", ring(0, 1, 2, 0, **away), "0 1 0 0 1 2", ring(1, 2, 0, 0, at=2))
    mends("bad current, the last slot used", ring(0, 0, 0, 1, **away), "0 1 0 0 1 1", ring(1, 0, 0, 0, at=1))
    mends("bad current, the last slot unused", ring(1, 2, 3, 0, **away), "0 1 0 0 1 0", ring(1, 2, 3, 0, at=3))
    mends("bad current, one slot, used", ring(1, current=START + 32), "0 1 0 0 0 0", ring(1))
    mends("bad current, one slot, unused", ring(0, current=START + 1), "0 1 0 0 0 0", ring(0))
    mends("bad current, words of unused slots stay", ring(old(1), old(2), **away), "0 1 0 0 0 0", ring(old(1), old(2)))
    mends("bad current, words of unused slots go", ring(1, old(2), old(3), **away), "0 1 0 0 1 0", ring(1, 0, 0, at=1))
    mends("current at a slot past the end", ring(1, 2, 3, 4, at=3, buffer_end=START + 96), "0 1 0 0 0 0", ring(1, 2, 3))


def types():
    """An in-use entry with a type not allowed gets flag 1, and nothing else of it changes."""
    def of(*entries):
        return ring(1, 0, at=1, entries=entries)

    for kind in (1, 14, 21, 28):
        for flag in (0, 1, 2, 255):
            mends(f"type {kind}, flag {flag}", of(THREAD, valve(flag, kind), FREE), NOTHING,
                  of(THREAD, valve(flag, kind), FREE))
    for kind in (0, 15, 20, 29, 255):
        for flag, counts in ((0, "0 0 1 0 0 0"), (1, NOTHING), (2, "0 0 1 0 0 0"), (255, "0 0 1 0 0 0")):
            mends(f"type {kind}, flag {flag}", of(THREAD, valve(flag, kind), FREE), counts,
                  of(THREAD, valve(1, kind), FREE))
    bad, freed = valve(0, 16), valve(1, 16)
    rows = {
        "first": (of(bad, THREAD, THREAD), 1, of(freed, THREAD, THREAD)),
        "last": (of(THREAD, THREAD, bad), 1, of(THREAD, THREAD, freed)),
        "first and last": (of(bad, THREAD, bad), 2, of(freed, THREAD, freed)),
        "all": (of(bad, valve(7, 30), valve(128, 128)), 3, of(freed, valve(1, 30), valve(1, 128))),
        "alone": (of(bad), 1, of(freed)),
        "around a free one": (of(bad, freed, bad), 2, of(freed, freed, freed)),
        "a thread's pointer": (of(entry(PUMP, b"pump", kind=0), THREAD), 1, of(entry(PUMP, b"pump", 1, 0), THREAD)),
        "all zeros": (of(entry(0, b"", 0, 0), FREE), 1, of(entry(0, b"", 1, 0), FREE)),
    }
    for title, (dump, count, copy) in rows.items():
        mends(f"bad type, {title}", dump, f"0 0 {count} 0 0 0", copy)


def ids():
    """A used slot with id 0 becomes zeros. The counts are those of ids, packed and moved."""
    rows = {
        "part full, oldest": (ring(lost(1), 2, 3, 0, at=3), "1 1 2", ring(2, 3, 0, 0, at=2)),
        "part full, middle": (ring(1, lost(2), 3, 0, at=3), "1 1 1", ring(1, 3, 0, 0, at=2)),
        "part full, newest": (ring(1, 2, lost(3), 0, at=3), "1 1 0", ring(1, 2, 0, 0, at=2)),
        "part full, all but the newest": (ring(lost(1), lost(2), 3, 0, at=3), "2 1 1", ring(3, 0, 0, 0, at=1)),
        "part full, all but the oldest": (ring(1, lost(2), lost(3), 0, at=3), "2 1 0", ring(1, 0, 0, 0, at=1)),
        "part full, all": (ring(lost(1), lost(2), lost(3), 0, at=3), "3 1 0", EMPTY),
        "part full, the only one": (ring(lost(1), 0, 0, 0, at=1), "1 1 0", EMPTY),
        "one slot": (ring(lost(1)), "1 0 0", ring(0)),
        "two slots, oldest": (ring(2, lost(1), at=1), "1 0 0", ring(2, 0, at=1)),
        "two slots, newest": (ring(lost(2), 1, at=1), "1 1 1", ring(1, 0, at=1)),
        "full ring, oldest": (ring(lost(1), 2, 3, 4), "1 1 3", ring(2, 3, 4, 0, at=3)),
        "full ring, middle": (ring(1, lost(2), 3, 4), "1 1 2", ring(1, 3, 4, 0, at=3)),
        "full ring, newest": (ring(1, 2, 3, lost(4)), "1 1 0", ring(1, 2, 3, 0, at=3)),
        "full ring, all": (ring(lost(1), lost(2), lost(3), lost(4)), "4 0 0", EMPTY),
        "gone round by 2, oldest": (ring(3, 4, lost(1), 2, at=2), "1 1 3", ring(2, 3, 4, 0, at=3)),
        "gone round by 2, second": (ring(3, 4, 1, lost(2), at=2), "1 1 3", ring(1, 3, 4, 0, at=3)),
        "gone round by 2, third": (ring(lost(3), 4, 1, 2, at=2), "1 1 3", ring(1, 2, 4, 0, at=3)),
        "gone round by 2, newest": (ring(3, lost(4), 1, 2, at=2), "1 1 3", ring(1, 2, 3, 0, at=3)),
        "gone round by 2, older half": (ring(3, 4, lost(1), lost(2), at=2), "2 0 0", ring(3, 4, 0, 0, at=2)),
        "gone round by 2, newer half": (ring(lost(3), lost(4), 1, 2, at=2), "2 1 2", ring(1, 2, 0, 0, at=2)),
        "gone round by 2, all": (ring(lost(3), lost(4), lost(1), lost(2), at=2), "4 1 0", EMPTY),
        "gone round by 3, oldest": (ring(2, 3, 4, lost(1), at=3), "1 0 0", ring(2, 3, 4, 0, at=3)),
        "gone round by 3, newest three": (ring(lost(2), lost(3), lost(4), 1, at=3), "3 1 1", ring(1, 0, 0, 0, at=1)),
        "gone round by 3, every second": (ring(lost(2), 3, lost(4), 1, at=3), "2 1 1", ring(1, 3, 0, 0, at=2)),
    }
    for title, (dump, counts, copy) in rows.items():
        mends(f"event id 0, {title}", dump, f"0 0 0 {counts}", copy)
    mends("event id 0, all other words full", ring(1, slot(ISR, ISR, 0, ISR, [ISR] * 4), 2, at=1), "0 0 0 1 1 2",
          ring(2, 1, 0, at=2))
    mends("event id 0, all words but the pointer 0", ring(1, slot(1, 0, 0, 0, [0] * 4), at=1), "0 0 0 1 0 0",
          ring(1, 0, at=1))
    mends("event id 0, unused slots keep their words", ring(1, slot(0, ident=0), lost(3), old(4), at=1), "0 0 0 1 0 0",
          ring(1, slot(0, ident=0), 0, old(4), at=1))


def gaps():
    """Where the used/unused rule fails, the used slots are packed in the order from current."""
    rows = {
        "current used, a later slot unused": (ring(1, 2, 3, 0, at=1), 3, ring(2, 3, 1, 0, at=3)),
        "current used, an earlier slot unused": (ring(0, 1, 2, 3, at=2), 3, ring(2, 3, 1, 0, at=3)),
        "current used at 0, the last slot unused": (ring(1, 2, 3, 0), 0, ring(1, 2, 3, 0, at=3)),
        "current used at the last, slot 0 unused": (ring(0, 1, 2, 3, at=3), 1, ring(3, 1, 2, 0, at=3)),
        "current used at the last, slot 2 unused": (ring(1, 2, 0, 3, at=3), 3, ring(3, 1, 2, 0, at=3)),
        "current alone used": (ring(0, 0, 1, 0, at=2), 1, ring(1, 0, 0, 0, at=1)),
        "current alone used, at 0": (ring(1, 0, 0, 0), 0, ring(1, 0, 0, 0, at=1)),
        "current alone used, at the last": (ring(0, 0, 0, 1, at=3), 1, ring(1, 0, 0, 0, at=1)),
        "an earlier slot unused": (ring(1, 0, 2, 0, at=3), 1, ring(1, 2, 0, 0, at=2)),
        "slot 0 unused": (ring(0, 1, 2, 0, at=3), 2, ring(1, 2, 0, 0, at=2)),
        "current one slot too far": (ring(1, 2, 0, 0, at=3), 0, ring(1, 2, 0, 0, at=2)),
        "current two slots too far": (ring(1, 0, 0, 0, at=3), 0, ring(1, 0, 0, 0, at=1)),
        "the slot after current used": (ring(1, 0, 2, 0, at=1), 2, ring(2, 1, 0, 0, at=2)),
        "the last slot used": (ring(1, 2, 0, 3, at=2), 3, ring(3, 1, 2, 0, at=3)),
        "all but current used": (ring(3, 0, 1, 2, at=1), 3, ring(1, 2, 3, 0, at=3)),
        "all but current used, at 0": (ring(0, 1, 2, 3), 3, ring(1, 2, 3, 0, at=3)),
        "current unused at 0, the next slot used": (ring(0, 1, 0, 0), 1, ring(1, 0, 0, 0, at=1)),
        "current unused at 0, the last slot used": (ring(0, 0, 0, 1), 1, ring(1, 0, 0, 0, at=1)),
        "every second slot, current used": (ring(2, 0, 1, 0, at=2), 2, ring(1, 2, 0, 0, at=2)),
        "every second slot, current unused": (ring(0, 1, 0, 2, at=2), 1, ring(2, 1, 0, 0, at=2)),
        "one moves and two stay": (ring(0, 2, 3, 1, 0, at=3), 1, ring(1, 2, 3, 0, 0, at=3)),
        "two change places": (ring(2, 1, 0, at=1), 2, ring(1, 2, 0, at=2)),
        "seven slots": (ring(6, 0, 7, 0, 1, 0, 3, at=3), 4, ring(1, 3, 6, 7, 0, 0, 0, at=4)),
        "two slots, slot 1 used, current there": (ring(0, 1, at=1), 1, ring(1, 0, at=1)),
        "two slots, slot 1 used, current at 0": (ring(0, 1), 1, ring(1, 0, at=1)),
        "two slots, slot 0 used, current there": (ring(1, 0), 0, ring(1, 0, at=1)),
        "none used, current at 1": (ring(0, 0, 0, 0, at=1), 0, EMPTY),
        "none used, current at 2": (ring(0, 0, 0, 0, at=2), 0, EMPTY),
        "none used, current at the last": (ring(0, 0, 0, 0, at=3), 0, EMPTY),
        "none used, two slots, current at 1": (ring(0, 0, at=1), 0, ring(0, 0)),
        "words of unused slots go": (ring(old(4), 1, old(5), 2, at=3), 1, ring(2, 1, 0, 0, at=2)),
        "words of unused slots go, none moves": (ring(1, old(2), old(3), old(4), at=2), 0, ring(1, 0, 0, 0, at=1)),
        "words of unused slots go, none used": (ring(old(1), old(2), 0, old(4), at=1), 0, EMPTY),
    }
    for title, (dump, moved, copy) in rows.items():
        mends(f"gap, {title}", dump, f"0 0 0 0 1 {moved}", copy)


def several():
    """Two and more at once, each mended in its turn."""
    bad, freed = [valve(0, 15), THREAD, valve(2, 0)], [valve(1, 15), THREAD, valve(1, 0)]
    away = dict(current=START + 16)
    rows = {
        "current, gap": (ring(1, 0, 2, 0, **away), "0 1 0 0 1 1", ring(1, 2, 0, 0, at=2)),
        "current, gap at slot 0": (ring(0, 1, 0, 2, **away), "0 1 0 0 1 2", ring(1, 2, 0, 0, at=2)),
        "current, id in slot 0": (ring(lost(1), 2, 3, 4, **away), "0 1 0 1 1 3", ring(2, 3, 4, 0, at=3)),
        "current, id in the last slot": (ring(1, 2, 3, lost(4), **away), "0 1 0 1 1 0", ring(1, 2, 3, 0, at=3)),
        "current, all ids": (ring(lost(1), lost(2), 0, 0, **away), "0 1 0 2 0 0", EMPTY),
        "current, missing": (ring(1, 2, 3, 4, cut=216, **away), "1 1 0 0 1 0", ring(1, 2, 3, 0, at=3)),
        "current, missing, gap": (ring(0, 2, 3, 4, cut=247, **away), "1 1 0 0 1 2", ring(2, 3, 0, 0, at=2)),
        "current, types": (ring(1, 2, 3, 4, entries=bad, **away), "0 1 2 0 0 0", ring(1, 2, 3, 4, entries=freed)),
        "missing, id": (ring(1, lost(2), 3, 4, cut=247), "1 0 0 1 1 1", ring(1, 3, 0, 0, at=2)),
        "missing, id at current": (ring(3, 4, lost(1), 2, at=2, cut=216), "1 0 0 1 0 0", ring(3, 4, 0, 0, at=2)),
        "missing, id before current": (ring(lost(4), 1, 2, 3, at=1, cut=216), "1 0 0 1 1 2", ring(1, 2, 0, 0, at=2)),
        "missing, types": (ring(1, 2, 0, 0, at=2, cut=200, entries=bad), "2 0 2 0 0 0",
                           ring(1, 2, 0, 0, at=2, entries=freed)),
        "all missing, types": (ring(1, 2, at=1, cut=120, entries=bad), "2 0 2 0 1 0", ring(0, 0, entries=freed)),
        "id in the missing slot": (ring(1, 2, 3, lost(4), cut=247), "1 0 0 0 1 0", ring(1, 2, 3, 0, at=3)),
        "id in the missing slot, half of it there": (ring(1, lost(2), at=1, cut=168), "1 0 0 0 0 0", ring(1, 0, at=1)),
        "id in the missing slot and before it": (ring(1, lost(2), lost(3), at=2, cut=215), "1 0 0 1 1 0",
                                                 ring(1, 0, 0, at=1)),
        "ids, all missing": (ring(lost(1), lost(2), cut=121), "2 0 0 0 0 0", ring(0, 0)),
        "ids, types": (ring(lost(1), 2, 3, 0, at=3, entries=bad), "0 0 2 1 1 2", ring(2, 3, 0, 0, at=2, entries=freed)),
        "ids, gap": (ring(1, 0, lost(2), 3, at=1), "0 0 0 1 1 2", ring(3, 1, 0, 0, at=2)),
        "types, gap": (ring(1, 0, 2, 0, at=1, entries=bad), "0 0 2 0 1 2", ring(2, 1, 0, 0, at=2, entries=freed)),
        "gap mended by an id": (ring(1, 0, lost(2), 0, at=1), "0 0 0 1 0 0", ring(1, 0, 0, 0, at=1)),
        "gap mended by missing slots": (ring(1, 0, 2, 3, at=1, cut=200), "2 0 0 0 0 0", ring(1, 0, 0, 0, at=1)),
        "gap mended by missing slots, words stay": (ring(1, old(2), 3, at=1, cut=200), "1 0 0 0 0 0",
                                                    ring(1, old(2), 0, at=1)),
        "everything": (ring(1, lost(2), 0, 3, lost(4), 5, cut=311, entries=bad, **away), "1 1 2 2 1 1",
                       ring(1, 3, 0, 0, 0, 0, at=2, entries=freed)),
        "everything, slot 0 lost": (ring(lost(1), 2, 0, 3, 4, 5, cut=300, entries=bad, **away), "1 1 2 1 1 3",
                                    ring(2, 3, 4, 0, 0, 0, at=3, entries=freed)),
        "everything but current": (ring(4, lost(5), 0, 1, 2, 3, at=3, cut=311, entries=bad), "1 0 2 1 1 3",
                                   ring(1, 2, 4, 0, 0, 0, at=3, entries=freed)),
        "everything but packing": (ring(lost(1), lost(2), 3, 4, cut=184, entries=bad, **away), "2 1 2 2 0 0",
                                   ring(0, 0, 0, 0, entries=freed)),
        "everything but current, none left": (ring(lost(1), lost(2), 3, 4, at=3, cut=184, entries=bad), "2 0 2 2 1 0",
                                              ring(0, 0, 0, 0, entries=freed)),
    }
    for title, (dump, counts, copy) in rows.items():
        mends(f"at once: {title}", dump, counts, copy)
    for title, by in NO_SLOT.items():
        mends(f"all missing, current {title}", ring(1, 2, 3, 4, cut=120, current=START + by), "4 1 0 0 0 0", EMPTY)
    for at, packed in enumerate((0, 1, 1, 1)):
        mends(f"all missing, current at slot {at}", ring(1, 2, 3, 4, at=at, cut=120), f"4 0 0 0 {packed} 0", EMPTY)


def kept():
    """Reserved fields and bytes hold anything and stay, whatever is mended; what lies past the end is not copied."""
    bad, freed = ([entry(PUMP, b"\0\xff\"\\\n", flag, 15, b"\xff\xfe", ISR, INIT)] for flag in (0, 1))
    for title, fields, end in (("reserved fields", dict(reserved=[0x1234, ISR, 0x54585442, 1]), {}),
                               ("reserved field of 16 bits", dict(reserved=[0xFFFF, 0, 0, 0]), {}),
                               ("bytes past the end", {}, dict(tail=bytes(range(1, 70))))):
        mends(f"{title}, nothing mended", ring(1, 0, at=1, **fields, **end), NOTHING, ring(1, 0, at=1, **fields))
        mends(f"{title}, current", ring(1, 2, current=0, **fields, **end), "0 1 0 0 0 0", ring(1, 2, **fields))
        mends(f"{title}, type", ring(1, 0, at=1, entries=bad, **fields, **end), "0 0 1 0 0 0",
              ring(1, 0, at=1, entries=freed, **fields))
        mends(f"{title}, id", ring(1, lost(2), at=1, **fields, **end), "0 0 0 1 0 0", ring(1, 0, at=1, **fields))
        mends(f"{title}, gap", ring(0, 1, **fields, **end), "0 0 0 0 1 1", ring(1, 0, at=1, **fields))
    fields = dict(reserved=[0x1234, ISR, 0x54585442, 1])
    mends("reserved fields, missing", ring(1, 2, at=1, cut=183, **fields), "1 0 0 0 0 0", ring(1, 0, at=1, **fields))
    mends("reserved fields, everything", ring(lost(1), 2, 3, current=0, cut=167, entries=bad, **fields), "1 1 1 1 1 1",
          ring(2, 0, 0, at=1, entries=freed, **fields))
    for mask in (1, 0xFF, 0xFFFFFFFF):
        mends(f"stamps above the mask {mask:#x}", ring(0, slot(stamp=ISR), mask=mask), "0 0 0 0 1 1",
              ring(slot(stamp=ISR), 0, at=1, mask=mask))


def tops():
    """256 bytes: the registry from 48, four slots from 128; the pointer to some offset is 0."""
    places = {256: "buffer end", 224: "last slot", 192: "third slot", 160: "second slot", 128: "buffer start",
              48: "registry start", 44: "last reserved field", 1: "second byte", 0: "first byte"}
    # What a current of 0 then is, by the count of bad currents and the slot's index.
    zero = {224: (0, 3), 192: (0, 2), 160: (0, 1), 128: (0, 0)}
    for offset, title in places.items():
        def of(*slots, at=0, **fields):
            return ring(*slots, at=at, entries=[THREAD, FREE, FREE, FREE], size=4, base=-offset % (1 << 32), **fields)

        bad, index = zero.get(offset, (1, 0))
        rows = {
            "sound": (of(3, 4, 1, 2, at=2), NOTHING, of(3, 4, 1, 2, at=2)),
            "current off a slot": (of(1, 2, 3, 4, current=129 - offset), "0 1 0 0 0 0", of(1, 2, 3, 4)),
            "current before the start": (of(1, 2, 3, 4, current=96 - offset), "0 1 0 0 0 0", of(1, 2, 3, 4)),
            "current at the end": (of(1, 2, 3, 4, current=256 - offset), "0 1 0 0 0 0", of(1, 2, 3, 4)),
            "current 0": (of(1, 2, 3, 4, current=0), f"0 {bad} 0 0 0 0", of(1, 2, 3, 4, at=index)),
            "none used": (of(0, 0, 0, 0, at=3), "0 0 0 0 1 0", of(0, 0, 0, 0)),
            "one used": (of(0, 0, 1, 0, at=2), "0 0 0 0 1 1", of(1, 0, 0, 0, at=1)),
            "two used": (of(2, 0, 1, 0, at=2), "0 0 0 0 1 2", of(1, 2, 0, 0, at=2)),
            "three used": (of(3, 0, 1, 2, at=2), "0 0 0 0 1 3", of(1, 2, 3, 0, at=3)),
            "one byte missing": (of(1, 2, 3, 4, cut=255), "1 0 0 0 1 0", of(1, 2, 3, 0, at=3)),
        }
        for what, (dump, counts, copy) in rows.items():
            mends(f"pointer 0 to the {title}, {what}", dump, counts, copy)


def name_sizes():
    """Two entries of each name size, the second with a bad type; and more or fewer entries."""
    for size in range(4, 65, 4):
        start = 48 + 2 * (16 + size)

        def of(*slots, flag=0, **fields):
            called = b"0123456789abcdef" * 4
            entries = [entry(PUMP, called[:size]), entry(VALVE, called[-size:], flag, 20)]
            return ring(*slots, entries=entries, size=size, **fields)

        mends(f"name size {size}, gap", of(1, 0, 2, at=1), "0 0 1 0 1 2", of(2, 1, 0, at=2, flag=1))
        mends(f"name size {size}, one byte missing", of(2, 3, 1, at=2, cut=start + 95), "1 0 1 0 0 0",
              of(2, 3, 0, at=2, flag=1))
        mends(f"name size {size}, all slots missing", of(1, 2, 3, cut=start), "3 0 1 0 0 0", of(0, 0, 0, flag=1))
        refuses(f"name size {size}, the entries' last byte missing", of(1, 2, 3, cut=start - 1), "26 1")
    for count in range(5):
        mends(f"{count} entries", ring(1, lost(2), entries=[valve(0, 29)] * count), f"0 0 {count} 1 1 0",
              ring(1, 0, at=1, entries=[valve(1, 29)] * count))


def lengths():
    """Both sides of 65,536 bytes. 2,046 slots with no entries end 16 before, 2,044 with one of name size 64 there."""
    most = [0] * 2046
    mends("65,536 bytes, gone round, the oldest with id 0",
          ring(*range(1048, 2047), lost(1), *range(2, 1048), at=999, entries=(), cut=65536), "0 0 0 1 1 2045",
          ring(*range(2, 2047), 0, at=2045, entries=()))
    mends("65,536 bytes, current at the end", ring(1, 2, 3, *most[3:], at=2046, entries=(), cut=65536), "0 1 0 0 1 0",
          ring(1, 2, 3, *most[3:], at=3, entries=()))
    mends("65,536 bytes, none used, current at the last", ring(*most, at=2045, entries=(), cut=65536), "0 0 0 0 1 0",
          ring(*most, entries=()))
    mends("the last slot of 2,046 alone used", ring(*most[1:], 9, at=2045, entries=()), "0 0 0 0 1 1",
          ring(9, *most[1:], at=1, entries=()))
    mends("2,046 slots missing", ring(*most, at=7, entries=(), cut=48), "2046 0 0 0 1 0", ring(*most, entries=()))
    for size, count in ((4, 3272), (64, 818)):
        bad, freed = ([entry(0, b"", flag, 0)] * count for flag in (0, 1))
        mends(f"{count} entries of name size {size}, all bad", ring(0, entries=bad, size=size), f"0 0 {count} 0 0 0",
              ring(0, entries=freed, size=size))

    def whole(*slots, **fields):
        return ring(*slots, *[0] * (2044 - len(slots)), entries=[THREAD], size=64, **fields)

    rows = {
        "all there": (whole(1, 2, 3, at=3), NOTHING, whole(1, 2, 3, at=3)),
        "all there, gap": (whole(0, 1, 2), "0 0 0 0 1 2", whole(1, 2, at=2)),
        "one byte missing": (whole(1, 2, at=2, cut=65535), "1 0 0 0 0 0", whole(1, 2, at=2)),
        "no slot there": (whole(at=2043, cut=128), "2044 0 0 0 1 0", whole()),
        "two slots and a byte there": (whole(1, 2, 3, at=3, cut=193), "2042 0 0 0 1 0", whole(1, 2, at=2)),
        "two slots there, current": (whole(1, lost(2), current=0, cut=192), "2042 1 0 1 1 0", whole(1, at=1)),
    }
    for title, (dump, counts, copy) in rows.items():
        case(f"buffer end 65,536, {title}", dump, (mending(65535), "16 0"), (mending(65536), (counts, copy)),
             (mending(65537), (counts, copy)))
    refuses("buffer end 65,536, a byte behind it", whole(cut=65537), "2 0")
    above = dict(buffer_end=0x20000000 + 65568)
    refuses("buffer end a slot above 65,536, no slot there", whole(cut=128, **above), "9 0")
    refuses("buffer end a slot above 65,536, all but that slot there", whole(**above), "9 0")
    mends("65,536 bytes, most past the end", ring(1, 0, at=1, cut=65536), NOTHING, ring(1, 0, at=1))
    refuses("65,537 bytes, most past the end", ring(1, 0, at=1, cut=65537), "2 0")
    refuses("65,537 bytes with a bad id", ring(1, 0, at=1, id=0, cut=65537), "2 0")


def refusals():
    """1 to 9 and 26 at the registry end refuse, also where there is no room."""
    for refusal, title, dump in broken():
        if int(refusal.split()[0]) < 10 or dump.cut in (48, 119):
            refuses(f"refusal {refusal}, {title}", dump, refusal)
    rows = {
        "47 bytes with a bad id": (ring(1, id=0, cut=47), "1 0"),
        "id byte 0": (ring(1, raw={0: 0x43}), "3 0"), "id byte 3": (ring(1, raw={3: 0x43}), "3 0"),
        "mask 0xff00": (ring(1, mask=0xFF00), "4 0"), "mask 0xfffffffe": (ring(1, mask=0xFFFFFFFE), "4 0"),
        "name size 0": (ring(1, name_size=0), "5 0"), "name size 68": (ring(1, name_size=68), "5 0"),
        "name size 1024": (ring(1, name_size=1024), "5 0"),
        "registry start one byte early": (shifted("registry_start", -1), "6 0"),
        "registry end offset 47": (shifted("registry_end", -1, entries=0), "7 0"),
        "registry end below the base": (shifted("registry_end", -49, entries=0), "7 0"),
        "registry end above 65,536": (shifted("registry_end", 65544 - 120), "7 0"),
        "registry end past the dump, not whole entries": (shifted("registry_end", 241), "7 0"),
        "registry end far past the dump": (shifted("registry_end", 65520 - 120), "26 65272"),
        "registry end an entry past the dump": (changed(Dump(), cut=96), "26 24"),
        "buffer start one byte early": (shifted("buffer_start", -1), "8 0"),
        "buffer end at its start": (shifted("buffer_end", -128), "9 0"),
        "buffer end below its start": (shifted("buffer_end", -160), "9 0"),
        "buffer end one short of a slot": (shifted("buffer_end", -97), "9 0"),
        "buffer end one past a slot": (shifted("buffer_end", -95), "9 0"),
        "buffer end past the dump, not whole slots": (shifted("buffer_end", 33), "9 0"),
        "3 before 4": (changed(Dump(), id=1, mask=0), "3 0"),
        "4 before 5": (changed(Dump(), mask=0, name_size=3), "4 0"),
        "5 before 6": (changed(shifted("registry_start", 1), name_size=3), "5 0"),
        "6 before 7": (changed(shifted("registry_start", 1), registry_end=0), "6 0"),
        "6 before 26": (changed(shifted("registry_start", 1), cut=100), "6 0"),
        "26 before 8": (shifted("registry_end", 240), "26 112"),
        "26 before 9": (changed(shifted("buffer_end", 1), cut=100), "26 20"),
        "8 before 9": (changed(shifted("buffer_start", 1), buffer_end=0), "8 0"),
        "8, slots missing": (changed(shifted("buffer_start", 32), cut=200), "8 0"),
        "8, gap": (shifted("buffer_start", 1).use(1, 3), "8 0"),
        "9, slots missing": (changed(shifted("buffer_end", 1), cut=120), "9 0"),
        "9, current": (changed(shifted("buffer_end", 1), current=0), "9 0"),
        "9, types": (changed(shifted("buffer_end", 1), entries=[valve(0, 0)] * 3), "9 0"),
    }
    for title, (dump, refusal) in rows.items():
        refuses(title, dump, refusal)


def rooms():
    """16 where there is less room than up to the buffer end, whatever the dump's length; more room is not used."""
    rows = {
        "sound": (ring(1, 2, 0, 0, at=2), NOTHING, ring(1, 2, 0, 0, at=2)),
        "bytes past the end": (ring(1, 2, 0, 0, at=2, tail=b"\xee" * 100), NOTHING, ring(1, 2, 0, 0, at=2)),
        "missing": (ring(1, 2, 3, 4, cut=200), "2 0 0 0 1 0", ring(1, 2, 0, 0, at=2)),
        "all missing": (ring(1, 2, 3, 4, at=1, cut=120), "4 0 0 0 1 0", EMPTY),
        "current": (ring(1, 2, 3, 4, current=0), "0 1 0 0 0 0", ring(1, 2, 3, 4)),
        "types": (ring(1, 2, 3, 4, entries=[THREAD, FREE, valve(0, 0)]), "0 0 1 0 0 0",
                  ring(1, 2, 3, 4, entries=[THREAD, FREE, valve(1, 0)])),
        "ids": (ring(3, 4, lost(1), 2, at=2), "0 0 0 1 1 3", ring(2, 3, 4, 0, at=3)),
        "gap": (ring(1, 0, 2, 0, at=3), "0 0 0 0 1 1", ring(1, 2, 0, 0, at=2)),
    }
    for title, (dump, counts, copy) in rows.items():
        less = [(mending(room), "16 0") for room in (0, 1, 47, 48, 120, 200, 216, 247)]
        enough = [(mending(room), (counts, copy)) for room in (248, 249, 279, 280, 348, 65536, PLENTY)]
        case(f"rooms, {title}", dump, *less, *enough)
    for length, missing in ((48, 1), (79, 1), (80, 0), (200, 0)):
        copy = ring(1 - missing, entries=())
        case(f"rooms, one slot, {length} bytes", ring(1, entries=(), cut=length), (mending(79), "16 0"),
             (mending(80), (f"{missing} 0 0 0 0 0", copy)), (mending(81), (f"{missing} 0 0 0 0 0", copy)))
    top = ring(1, 2, 3, 4, entries=[FREE] * 4, size=4, base=0xFFFFFF00)
    case("rooms, end pointer 0", top, (mending(0), "16 0"), (mending(255), "16 0"), (mending(256), (NOTHING, top)))


def unchanged():
    """The dump itself stays: it is mended alike again, and the check says of it what it said."""
    rows = {
        "missing": (ring(1, 2, at=1, cut=183), "26 1", "1 0 0 0 0 0", ring(1, 0, at=1)),
        "current": (ring(1, 2, current=0), "10 0", "0 1 0 0 0 0", ring(1, 2)),
        "types": (ring(1, 2, entries=[THREAD, valve(0, 0)]), "11 1", "0 0 1 0 0 0",
                  ring(1, 2, entries=[THREAD, valve(1, 0)])),
        "gap": (ring(1, 0, 2, at=1, tail=b"tail"), "12 2", "0 0 0 0 1 2", ring(2, 1, 0, at=2)),
        "ids": (ring(1, 2, lost(3), at=1), "13 2", "0 0 0 1 1 2", ring(2, 1, 0, at=2)),
        "everything": (ring(lost(1), 2, 0, 3, current=0, cut=199, entries=[valve(0, 0)]), "26 1", "1 1 1 1 1 1",
                       ring(2, 0, 0, 0, at=1, entries=[valve(1, 0)])),
    }
    for title, (dump, refusal, counts, copy) in rows.items():
        case(f"the dump stays, {title}", dump, (CHECKED, refusal), (mending(PLENTY), (counts, copy)), (ALL_BYTES, dump),
             (mending(0), "16 0"), (ALL_BYTES, dump), (mending(PLENTY), (counts, copy)), (CHECKED, refusal))
    case("the dump stays, refused", shifted("buffer_end", 1), (CHECKED, "9 0"), (mending(PLENTY), "9 0"),
         (ALL_BYTES, shifted("buffer_end", 1)), (CHECKED, "9 0"))


def names():
    """An entry that is freed for its type names nobody; a gone thread's name is found in the copy as in the dump."""
    used = slot(PUMP), slot(ISR, PUMP), slot(INIT, PUMP)
    pump, gone = entry(PUMP, b"pump"), entry(PUMP, b"old", flag=1)
    odd, freed = entry(PUMP, b"odd", kind=15), entry(PUMP, b"odd", 1, 15)
    zeros, spent = entry(0, b"zeros", 255, 0), entry(0, b"zeros", 1, 0)
    rows = {
        "odd": ([odd], [freed], "11 0", 1, "null 0", None, False),
        "odd, gone": ([odd, gone], [freed, gone], "11 0", 1, '"old" gone 3 88', "old", True),
        "gone, odd": ([gone, odd], [gone, freed], "11 1", 1, '"old" gone 3 64', "old", True),
        "odd, gone, in use": ([odd, gone, pump], [freed, gone, pump], "11 0", 1, '"pump" live 4 112', "pump", False),
        "zeros, gone": ([zeros, gone, zeros], [spent, gone, spent], "11 0", 2, '"old" gone 3 88', "old", True),
        "gone twice": ([entry(PUMP, b"", 1), gone], [entry(PUMP, b"", 1), gone], "12 0", 0, '"" gone 0 64', "", True),
        "in use, gone": ([pump, gone], [pump, gone], "12 0", 0, '"pump" live 4 64', "pump", False),
    }
    for title, (entries, after, refusal, types, found, called, kind) in rows.items():
        # The slots are packed too: the used/unused rule fails at slot 0.
        dump, copy = ring(0, *used, at=1, entries=entries), ring(*used, 0, at=3, entries=after)
        before = found if refusal == "12 0" else refusal
        case(f"names, {title}", dump, (naming(PUMP), before), (LISTED, refusal),
             (mending(PLENTY), (f"0 0 {types} 0 1 3", copy)), (naming(PUMP), before))
        case(f"names, {title}, the copy", copy, (naming(PUMP), found), (naming(0), "null 0"), (naming(VALVE), "null 0"),
             (LISTED, [(called, kind), (called, kind), (None, False)]), (mending(PLENTY), (NOTHING, copy)))


# Seeded cases.

def seeded_slot(chance, used):
    """A used slot, now and then with id 0; or an unused one, now and then with words."""
    words = [chance.one(PUMP, VALVE, INIT, ISR, 1), *(chance.bits(32) for _ in range(7))]
    words[2] = chance.one(*[1 + chance.below(2000)] * 15, 0)
    return words if used else [0] * 8 if chance.below(4) else [0, *words[1:]]


def seeded_entry(chance):
    kind = chance.one(1, 14, 21, 28, chance.below(32), chance.below(32))
    return entry(chance.one(PUMP, VALVE, ALARM), chance.bytes(4), chance.one(0, 1, 2, 255), kind, chance.bytes(2),
                 chance.bits(32), chance.bits(32))


def harm(dump, chance):
    """Changes one thing of a dump, mostly one that can be mended."""
    kind = chance.one("current", "current", "gap", "gap", "id", "cut", "cut", "any")
    start, length = dump.buffer_start - dump.base, len(dump.bytes("<"))
    if kind == "current":
        dump.current += chance.one(-32, -1, 1, 16, 32, 64, 32 * len(dump.slots), chance.bits(32))
    elif kind == "gap":
        dump.slots[chance.below(len(dump.slots))] = seeded_slot(chance, chance.below(2))
    elif kind == "id":
        dump.slots[chance.below(len(dump.slots))][2] = 0
    elif kind == "cut" and start < length:
        dump.cut = start + chance.below(length - start)
    else:
        damage(dump, chance)


def seeded_dump(chance):
    """A ring that is sound or has used slots anywhere, and up to three things changed."""
    dump = Dump(chance.below(5), 1 + chance.below(8), 4 + 4 * chance.below(16),
                chance.one(0, 0x20000000, 0xFFFFFF00, 0xFFFFFFE0, chance.bits(32)))
    count = len(dump.slots)
    current = chance.below(count)
    used = range(chance.one(current, count)) if chance.below(4) else [i for i in range(count) if chance.below(2)]
    dump.at(current).slots = [seeded_slot(chance, i in used) for i in range(count)]
    dump.entries = [seeded_entry(chance) for _ in dump.entries]
    dump.reserved = [chance.bits(16), *(chance.bits(32) for _ in range(3))]
    dump.tail = chance.bytes(chance.below(3) * 11)
    for _ in range(chance.below(4)):
        harm(dump, chance)
    return dump


def seeded(index, chance):
    """A dump and three rooms, near to what the slots take and anywhere."""
    dump = seeded_dump(chance)
    end = (dump.buffer_end - dump.base) % (1 << 32) % 65536
    rooms = (end, max(0, end + chance.one(-32, -1, 1, 32)), chance.below(PLENTY + 1))
    return Case(f"seeded {index}", dump, [(mending(room), None) for room in rooms])


# The replies.

def passes(dump):
    return answer(dump).split()[0] in WORDS.values()


def reply_to(letter, given, dump):
    """A call's answer, and the reply that the program must print."""
    if letter in "bc":
        said = {"b": bytes.hex, "c": answer}[letter](dump)
        return said, said
    try:
        if letter == "n":
            found = found_name(find_name(dump, *given))
            return found, found
        if letter == "a":
            text = listing(dump, *given)
            lines = map(json.loads, text.splitlines())
            return [(line["name"], line["gone"]) for line in lines], written(text)
        copy, counts = mend(dump, *given)
    except Refused as refusal:
        return str(refusal), f"{refusal} 0"
    assert passes(copy) and (not passes(dump) or copy == dump[:len(copy)] and not any(counts))
    return (" ".join(map(str, counts)), copy.hex()), mended(copy, counts, answer(copy))


def said_by(by_hand, order):
    """An answer by hand as a call gives it: a dump is its bytes in hex."""
    if isinstance(by_hand, tuple):
        return tuple(said_by(part, order) for part in by_hand)
    return by_hand.bytes(order).hex() if isinstance(by_hand, Dump) else by_hand


def add(made, order, title, cases):
    """Puts a case into the file, with what it must print."""
    dump, calls = made.dump.bytes(order), []
    for (letter, given), by_hand in made.steps:
        assert letter != "b" or len(dump) <= MOST_IN_HEX
        given_back, reply = reply_to(letter, given, dump)
        expected = said_by(by_hand, order)
        if expected not in (None, given_back):
            sys.exit(f"{title}, {letter}: by hand {expected}, by rule {given_back}")
        calls.append((letter, given, reply))
    cases.add(title, dump, calls)


GROUPS = (sound, missing, currents, types, ids, gaps, several, kept, tops, name_sizes, lengths, refusals, rooms,
          unchanged, names)
cases = Cases()
for group in GROUPS:
    group()
for order, word in WORDS.items():
    for named in CASES:
        add(named, order, f"{named.name}, {word}", cases)

chance = Chance(2029)
for index in range(300):
    made = seeded(index, chance)
    add(made, chance.one(*WORDS), made.name, cases)

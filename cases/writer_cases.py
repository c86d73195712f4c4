"""The calls that the program `cases` makes on buffers, and what it must print.

The answers and the bytes come from writer.py, names and listings from reader.py, which are written from
the documents and not from our code. A named case also says by hand what each call must answer, and mostly
the dump that must be left, field by field; the two must agree, or nothing is written. The seeded cases
have the two modules' word alone.
"""
import json
import sys
from collections import namedtuple

from dumps import (ALARM, INIT, ISR, OF_THE_HEADER, PUMP, VALVE, WORDS, Dump, Refused, broken, changed, damage, entry,
                   no_id, slot)
from form import MOST_IN_HEX, Cases, digest, found_name, written
from made import Chance
from reader import Reading, find_name, listing
from texts import DOCUMENT
from writer import Format, Object, format_buffer, record, register, remove

PLAIN = Reading(rate=1000000, unit=0, serial=0)
TWO_64 = 1 << 64

# The room that a listing gets.
ROOM = 65536

# A call is a letter and what is given. A step is a call and its reply by hand, or none where the case is seeded.
Case = namedtuple("Case", "name buffer steps ends")
CASES = []


def case(name, buffer, *steps, ends=None):
    """A case in both orders: a dump or bytes, steps, and what all bytes must be at the end."""
    CASES.append(Case(name, buffer, steps, ends))


# The calls.

def formatting(base=0x20000000, mask=0xFFFF, size=8, entries=0, order=None):
    """With no order given it is the case's."""
    return "f", (Format(order, base, mask, size, entries),)


def recording(words):
    return "w", (words,)


def registering(pointer, called, kind=1, one=0, two=0, reserved=b"\0\0"):
    return "o", (Object(kind, pointer, one, two, reserved), called)


def removing(pointer):
    return "x", (pointer,)


def naming(pointer):
    return "n", (pointer,)


def listed(reading=PLAIN):
    return "a", (reading, ROOM)


ALL_BYTES = ("b", ())


# What buffers hold.

def plain(length):
    return b"\xee" * length


def pattern(length):
    """Bytes of which none is zero and no two neighbours are the same."""
    return bytes((37 * i + 11) % 251 + 1 for i in range(length))


FREE = entry(0, b"", flag=1, kind=0)


def holding(*entries, slots=2, size=8, **fields):
    """A dump of these entries and an empty ring."""
    return changed(Dump(len(entries), slots, size), entries=list(entries), **fields)


def fresh(entries, slots, size=8, base=0x20000000, **fields):
    """What formatting must leave."""
    return changed(Dump(entries, slots, size, base), entries=[FREE] * entries, **fields)


def sound(**fields):
    """Two used slots of four; three entries, of which the last is free."""
    dump = Dump().use(0, 1).at(2)
    dump.entries[2] = entry(PUMP + 2, b"gone", flag=1)
    return changed(dump, **fields)


def rounds(count, slots):
    """So many events, numbered from 1, a tick apart, each with the index of the slot that it fills."""
    return [(recording(slot(ident=i + 1, stamp=i)), f"done {i % slots}") for i in range(count)]


def numbered(*idents):
    """The slots that `rounds` leaves, by their events' numbers; 0 is an unused one."""
    return [slot(ident=ident, stamp=ident - 1) if ident else [0] * 8 for ident in idents]


# The cases.

def whole_case():
    last = [slot(PUMP, 16, 5, 65500), slot(ISR, PUMP, 1025, 20, (0, 0, 0, 0)),
            slot(0x20002000, 16, 6, 20, (7, 0, 0, 0))]
    ends = changed(Dump(entries=1, slots=3).at(1), slots=[last[2], last[0], last[1]])
    assert ends.current == 0x20000000 + 104
    reading = Reading(rate=3000000, unit=8192, serial=0)
    case("whole case, formatted", plain(168), (formatting(entries=1), "done 3"), (listed(), ""), ends=fresh(1, 3))
    case("whole case", plain(168), (formatting(entries=1), "done 3"), (registering(PUMP, b"pump"), "done 0"),
         (recording(slot(ident=4, stamp=65400)), "done 0"), (recording(last[0]), "done 1"),
         (recording(last[1]), "done 2"), (recording(last[2]), "done 0"),
         (listed(reading), DOCUMENT), ends=ends)
    case("whole case, removed", ends, (listed(reading), DOCUMENT), (removing(PUMP), "done 0"),
         (listed(reading), DOCUMENT.replace('"pump","gone":false', '"pump","gone":true')))


def tops():
    """256 bytes: the registry from 48, four slots from 128; the pointer to some offset is 0."""
    places = {256: "buffer end", 224: "last slot", 192: "third slot", 160: "second slot", 128: "buffer start",
              48: "registry start", 44: "last reserved field", 1: "second byte", 0: "first byte"}
    for offset, title in places.items():
        base = -offset % (1 << 32)
        ends = Dump(entries=4, slots=4, name_size=4, base=base).at(1)
        ends.entries = [entry(PUMP, b"pump", flag=1), entry(VALVE, b"valv"), FREE, FREE]
        ends.slots = numbered(9, 6, 7, 8)
        case(f"base {base:#x}, formatted", pattern(256), (formatting(base, size=4, entries=4), "done 4"),
             ends=fresh(4, 4, 4, base))
        case(f"base {base:#x}, pointer 0 to the {title}", pattern(256),
             (formatting(base, size=4, entries=4), "done 4"), (registering(PUMP, b"pump"), "done 0"),
             (registering(VALVE, b"valve"), "done 1"), *rounds(9, 4),
             (listed(), dict(id=[6, 7, 8, 9], ticks=[0, 1, 2, 3], name=["pump"] * 4, gone=[False] * 4)),
             (removing(PUMP), "done 0"), (naming(PUMP), '"pump" gone 4 64'),
             (listed(), dict(id=[6, 7, 8, 9], name=["pump"] * 4, gone=[True] * 4)), ends=ends)


def lengths():
    """Both sides of 65,536 bytes, for every call."""
    case("format 65,536 bytes", plain(65536), (formatting(), "done 2046"), (recording(slot()), "done 0"),
         (recording(slot(ident=6)), "done 1"), (listed(), dict(id=[5, 6])))
    case("format 65,537 bytes", plain(65537), (formatting(), "2 0"), (formatting(entries=1), "2 0"))
    for title, length, answers in (("65,536", 65536, ("done 2", "done 2", "done 1")), ("65,537", 65537, ["2 0"] * 3)):
        steps = zip((recording(slot()), registering(ALARM, b"alarm"), removing(PUMP + 1)), answers)
        case(f"write into {title} bytes", sound(cut=length), *steps)
    for size, most in ((4, 3272), (64, 818)):
        case(f"65,536 bytes, {most} entries", plain(65536), (formatting(size=size, entries=most + 1), "24 0"),
             (formatting(size=size, entries=most), "done 1"), (registering(PUMP, b"pump"), "done 0"),
             (removing(VALVE), "22 0"), (recording(slot()), "done 0"), (recording(slot(ident=6)), "done 0"),
             (listed(), dict(id=[6], name=["pump"], gone=[False])), (removing(PUMP), "done 0"),
             (listed(), dict(id=[6], name=["pump"], gone=[True])))


def masks():
    """A stamp of all ones is cut to the mask."""
    for mask in [(1 << width) - 1 for width in range(1, 33)]:
        used = changed(fresh(0, 2, mask=mask).at(1), slots=[slot(stamp=mask), [0] * 8])
        case(f"format, mask {mask:#x}", plain(112), (formatting(mask=mask), "done 2"),
             (recording(slot(stamp=0xFFFFFFFF)), "done 0"), ends=used)
    for mask in (0, 2, 5, 0xFF00, 0x10000, 0xFFFE, 0x7FFFFFFE, 0x80000000, 0xFFFFFFFE, 0xFFFEFFFF):
        case(f"format, mask {mask:#x}", plain(112), (formatting(mask=mask), "4 0"))


def name_sizes():
    for size in range(4, 65, 4):
        before = pattern(48 + 2 * (16 + size) + 69)
        case(f"format, name size {size}", before, (formatting(size=size, entries=2), "done 2"),
             ends=fresh(2, 2, size, tail=before[-5:]))
    for size in (0, 1, 2, 3, 5, 6, 7, 62, 63, 65, 66, 68, 72, 0x0400, 0x4000, 0xFF04, 0xFFFC, 65535):
        case(f"format, name size {size}", plain(300), (formatting(size=size), "5 0"))


def rooms():
    for length in (0, 1, 31, 32, 47, 48, 79):
        case(f"format {length} bytes, no entries", pattern(length), (formatting(), "24 0"))
    for length, slots in ((80, 1), (81, 1), (111, 1), (112, 2), (143, 2), (144, 3)):
        case(f"format {length} bytes, no entries", pattern(length), (formatting(), f"done {slots}"),
             ends=fresh(0, slots, tail=pattern(length)[48 + 32 * slots:]))
    for size, entries, fit in ((4, 1, 100), (4, 3, 140), (8, 2, 128), (64, 5, 480)):
        case(f"format {fit - 1} bytes, {entries} entries of name size {size}", pattern(fit - 1),
             (formatting(size=size, entries=entries), "24 0"))
        for more, slots in ((0, 1), (31, 1), (32, 2)):
            case(f"format {fit + more} bytes, {entries} entries of name size {size}", pattern(fit + more),
                 (formatting(size=size, entries=entries), f"done {slots}"),
                 ends=fresh(entries, slots, size, tail=pattern(fit + more)[fit - 32 + 32 * slots:]))


def counts():
    """Entry counts that no buffer holds, among them those whose size is small modulo two to the 64 or to the 32."""
    rows = [(4, 1 << 63), (64, 1 << 63), (4, TWO_64 - 1), (16, TWO_64 - 1), (64, TWO_64 - 1),
            (16, 1 << 59), (16, (1 << 59) + 1), (48, 1 << 58), (48, (1 << 58) + 1), (16, 1 << 60),
            # the sum with the header, or with the header and a slot, is small
            (16, (1 << 59) - 1), (16, (1 << 59) - 2), (16, (1 << 59) - 3),
            (4, (TWO_64 + 4) // 20), (4, (TWO_64 + 24) // 20), (64, (TWO_64 + 64) // 80),
            (16, 1 << 27), (16, (1 << 27) + 1), (16, (1 << 27) - 2), (4, ((1 << 32) + 4) // 20),
            (4, 1 << 32), (4, (1 << 32) + 1), (8, 1 << 16), (8, (1 << 16) + 1), (8, 1 << 31), (8, (1 << 31) + 1)]
    for size, entries in rows:
        for length in (200, 65536):
            case(f"{length} bytes, {entries} entries of name size {size}", plain(length),
                 (formatting(size=size, entries=entries), "24 0"))


def leftovers():
    """Bytes past the last slot stay; all others, reserved fields too, are as they must be."""
    for more in range(32):
        before = pattern(48 + 24 + 64 + more)
        case(f"format, {more} bytes left over", before, (formatting(entries=1), "done 2"),
             ends=fresh(1, 2, tail=before[136:]))
    used = sound(reserved=[0xFFFF, 1, 2, 0xFFFFFFFF], tail=b"tail")
    case("format a used buffer", used, (formatting(), "done 6"), (listed(), ""),
         ends=fresh(0, 6, tail=bytes(8) + b"tail"))


def turned():
    """A buffer formatted again, in the same order or in the other."""
    for order, word in WORDS.items():
        case(f"formatted again as {word}", plain(200), (formatting(entries=2), "done 3"),
             (registering(PUMP, b"pump"), "done 0"), *rounds(4, 3), (listed(), dict(id=[2, 3, 4])),
             (formatting(0xFFFFFF80, 0xFF, 12, 1, order), "done 3"), (listed(), ""),
             (registering(VALVE, b"valve"), "done 0"), (removing(PUMP), "22 0"),
             (recording(slot(VALVE, 2, 7, 0x1234)), "done 0"), (listed(), dict(ptr=[VALVE], id=[7], name=["valve"])))


def writes():
    """17 and 18: both sides, and their order."""
    for pointer, ident, answer in ((0, 1, "17 0"), (0, 0, "17 0"), (0, ISR, "17 0"), (1, 0, "18 0"), (ISR, 0, "18 0"),
                                   (1, 1, "done 2"), (INIT, 1024, "done 2"), (ISR, 1025, "done 2"), (1, ISR, "done 2")):
        ends = sound()
        if answer == "done 2":
            ends.at(3).slots[2] = [pointer, 16, ident, 100, 1, 2, 3, 4]
        case(f"write pointer {pointer:#x}, id {ident}", sound(), (recording(slot(pointer, ident=ident)), answer),
             ends=ends)


def rings():
    """Several times round rings of 1, 2, 3 and 7 slots, and part of the way."""
    rows = [(1, 4, [4], 0, [4]), (2, 7, [7, 6], 1, [6, 7]), (3, 10, [10, 8, 9], 1, [8, 9, 10]),
            (7, 22, [22, 16, 17, 18, 19, 20, 21], 1, [16, 17, 18, 19, 20, 21, 22]),
            (1, 1, [1], 0, [1]), (2, 1, [1, 0], 1, [1]), (2, 2, [1, 2], 0, [1, 2]), (3, 2, [1, 2, 0], 2, [1, 2]),
            (7, 6, [1, 2, 3, 4, 5, 6, 0], 6, [1, 2, 3, 4, 5, 6]),
            (7, 7, [1, 2, 3, 4, 5, 6, 7], 0, [1, 2, 3, 4, 5, 6, 7]),
            (7, 13, [8, 9, 10, 11, 12, 13, 7], 6, [7, 8, 9, 10, 11, 12, 13])]
    for slots, count, idents, current, oldest_first in rows:
        ends = changed(fresh(1, slots).at(current), slots=numbered(*idents))
        case(f"{count} events in {slots} slots", plain(72 + 32 * slots), (formatting(entries=1), f"done {slots}"),
             *rounds(count, slots), (listed(), dict(id=oldest_first)), ends=ends)


def stamps():
    """Stamps are cut by the mask; every other word goes in as it is."""
    rows = [(0x1, [0, 1, 2, 3, 0xFFFFFFFE], [0, 1, 0, 1, 0]), (0xFF, [0xFF, 0x100, 0x1FF], [0xFF, 0, 0xFF]),
            (0xFFFF, [65500, 65556, 0xABCD0014], [65500, 20, 0x14]), (0x7FFFFFFF, [0x80000000, ISR], [0, 0x7FFFFFFF]),
            (0xFFFFFFFF, [0x80000000, ISR, 0], [0x80000000, 0xFFFFFFFF, 0])]
    for mask, given, stored in rows:
        ends = fresh(0, 6, mask=mask).at(len(stored))
        ends.slots[:len(stored)] = [slot(stamp=stamp) for stamp in stored]
        case(f"stamps under {mask:#x}", plain(240), (formatting(mask=mask), "done 6"),
             *[(recording(slot(stamp=stamp)), f"done {i}") for i, stamp in enumerate(given)], ends=ends)
    words = [0x01020304, 0xF1F2F3F4, 0xFFFFFFFF, 0x05060708, 0x090A0B0C, 0x0D0E0F10, 0x11121314, 0x80000001]
    ends = changed(sound().at(3), slots=[*sound().slots[:2], [*words[:3], 0x0708, *words[4:]], [0] * 8])
    case("words whose bytes differ", sound(), (recording(words), "done 2"), ends=ends)


def kept():
    """Recording, registering and removing change nothing else: reserved fields, other slots, old entries, the tail."""
    fields = dict(reserved=[0x1234, 0xFFFFFFFF, 0x54585442, 1], tail=pattern(13))
    ends = sound(**fields).at(3)
    ends.slots[2] = slot(ALARM, ident=9)
    case("kept by recording", sound(**fields), (recording(slot(ALARM, ident=9)), "done 2"), ends=ends)
    ends = sound(**fields)
    ends.entries[2] = entry(ALARM, b"alarm", one=7, two=8)
    case("kept by registering", sound(**fields), (registering(ALARM, b"alarm", one=7, two=8), "done 2"), ends=ends)
    ends = sound(**fields)
    ends.entries[1] = entry(PUMP + 1, b"pump", flag=1)
    case("kept by removing", sound(**fields), (removing(PUMP + 1), "done 1"), ends=ends)
    full = Dump().use(0, 1, 2, 3).at(3)
    ends = changed(Dump().use(0, 1, 2, 3).at(0), slots=[*full.slots[:3], slot(ident=9)])
    case("kept by recording in the last slot", full, (recording(slot(ident=9)), "done 3"), ends=ends)
    short = changed(Dump().use(0, 1, 2, 3).at(1), buffer_end=0x20000000 + 48 + 72 + 64)
    ends = changed(Dump().use(0, 1, 2, 3), buffer_end=0x20000000 + 48 + 72 + 64)
    ends.slots[1] = slot(ident=9)
    case("kept past the buffer end", short, (recording(slot(ident=9)), "done 1"), ends=ends)


def types():
    """19: the types at each side of what is allowed."""
    for kind in (1, 2, 13, 14, 21, 22, 27, 28):
        case(f"register type {kind}", holding(FREE), (registering(PUMP, b"pump", kind), "done 0"),
             ends=holding(entry(PUMP, b"pump", kind=kind)))
    for kind in (0, 15, 16, 19, 20, 29, 30, 127, 128, 129, 254, 255):
        case(f"register type {kind}", holding(FREE), (registering(PUMP, b"pump", kind), "19 0"), ends=holding(FREE))


def same_pointer():
    """20: an in-use entry of any type has the pointer; free ones do not count, whatever they hold."""
    pump, valve, old = entry(PUMP, b"pump"), entry(VALVE, b"valve"), entry(PUMP, b"old", flag=1)
    rows = {
        "in use first": ([pump, FREE], "20 0"), "in use second": ([valve, pump, FREE], "20 1"),
        "in use after a free one": ([FREE, valve, pump], "20 2"), "in use twice": ([valve, pump, pump, FREE], "20 1"),
        "removed, then in use twice": ([old, pump, pump], "20 1"),
        "removed twice, then in use": ([old, old, pump], "20 2"),
        "removed": ([old, FREE], "done 0"), "removed after another": ([valve, old, FREE], "done 1"),
        "removed after a free one": ([FREE, old], "done 0"),
        "one off": ([entry(PUMP + 1, b""), entry(PUMP - 1, b""), FREE], "done 2"),
        "in the other order": ([entry(0x00100020, b"turned"), FREE], "done 1"),
    }
    for title, (entries, answer) in rows.items():
        case(f"pointer {title}", holding(*entries), (registering(PUMP, b"again"), answer))
    for kind in (1, 2, 14, 21, 28, 0, 15, 255):
        case(f"pointer in use by type {kind}", holding(FREE, entry(PUMP, b"x", kind=kind)),
             (registering(PUMP, b"pump"), "20 1"), (registering(PUMP, b"pump", 2), "20 1"))
    for flag in (0, 2, 127, 128, 254, 255):
        case(f"pointer in use by flag {flag}", holding(FREE, entry(PUMP, b"x", flag)),
             (registering(PUMP, b"pump"), "20 1"))
    for pointer in (0, INIT, ISR):
        case(f"pointer {pointer:#x} twice", holding(FREE, FREE), (registering(pointer, b"pump"), "done 0"),
             (registering(pointer, b"pump"), "20 0"), (removing(pointer), "done 0"), (removing(pointer), "22 0"))


def no_room():
    """21: no entry is free; a removed one serves again, the lowest first."""
    case("no entries", holding(), (registering(PUMP, b"pump"), "21 0"), (removing(PUMP), "22 0"), (removing(0), "22 0"))
    one, two, three, four = (registering(PUMP + i, b"%d" % i, one=i) for i in range(1, 5))
    case("three entries", plain(48 + 72 + 32), (formatting(entries=3), "done 1"), (one, "done 0"), (two, "done 1"),
         (three, "done 2"), (four, "21 0"), (removing(PUMP + 2), "done 1"), (four, "done 1"), (two, "21 0"),
         (removing(PUMP + 3), "done 2"), (removing(PUMP + 1), "done 0"), (two, "done 0"), (three, "done 2"),
         (one, "21 0"), ends=holding(*[entry(PUMP + i, b"%d" % i, one=i) for i in (2, 4, 3)], slots=1))
    used = [entry(VALVE + i, b"used", flag) for i, flag in enumerate((0, 2, 255))]
    case("every flag but 1 is in use", holding(*used), (registering(PUMP, b"pump"), "21 0"), ends=holding(*used))
    old = entry(ALARM, b"oldname!", flag=1, kind=99, spare=b"\xff\xfe", one=ISR, two=INIT)
    case("old contents are overwritten", holding(used[0], old, old), (registering(PUMP, b"x", 2, 3, 4), "done 1"),
         ends=holding(used[0], entry(PUMP, b"x", kind=2, one=3, two=4), old))


def removals():
    """22: no in-use entry has the pointer. Removing sets the flag and nothing else."""
    case("remove from fresh entries", holding(FREE, FREE), (removing(PUMP), "22 0"), (removing(0), "22 0"))
    case("remove another", holding(entry(PUMP, b"pump")), (removing(VALVE), "22 0"), (removing(PUMP + 1), "22 0"))
    case("remove twice", holding(entry(PUMP, b"pump")), (removing(PUMP), "done 0"), (removing(PUMP), "22 0"),
         ends=holding(entry(PUMP, b"pump", flag=1)))
    mixed = [entry(PUMP, b"old", flag=1), entry(PUMP, b"a", 2, 28), entry(VALVE, b""), entry(PUMP, b"b", 255, 99)]
    case("remove the lowest of two", holding(*mixed), (removing(PUMP), "done 1"), (removing(PUMP), "done 3"),
         (removing(PUMP), "22 0"), ends=holding(mixed[0], entry(PUMP, b"a", 1, 28), mixed[2], entry(PUMP, b"b", 1, 99)))
    rich = entry(ALARM, b"alarms!!", kind=14, spare=b"\x12\x34", one=ISR, two=INIT)
    case("remove keeps the contents", holding(FREE, rich), (removing(ALARM), "done 1"),
         ends=holding(FREE, [1, *rich[1:]]))
    for flag in (0, 2, 127, 128, 255):
        case(f"remove flag {flag}", holding(entry(PUMP, b"pump", flag)), (removing(PUMP), "done 0"),
             ends=holding(entry(PUMP, b"pump", flag=1)))


def zeros():
    """23: a zero byte anywhere in the name given, past the cut too."""
    rows = {"alone": b"\0", "first": b"\0pump", "last": b"pump\0", "in the middle": b"pu\0mp",
            "last before the cut": b"1234567\0", "at the cut": b"12345678\0", "past the cut": b"123456789\0",
            "far past the cut": b"x" * 300 + b"\0", "all": bytes(20)}
    for title, called in rows.items():
        case(f"zero byte {title}", holding(FREE), (registering(PUMP, called), "23 0"), ends=holding(FREE))
    every = bytes(range(1, 256))
    case("every byte but zero", holding(FREE), (registering(PUMP, every), "done 0"),
         ends=holding(entry(PUMP, every[:8])))


def names():
    """A name is cut to the name size and padded with zeros."""
    rows = [("empty", 8, b"", b""), ("one byte", 8, b"p", b"p"), ("one byte short", 8, b"pumping", b"pumping"),
            ("as long", 8, b"pumpings", b"pumpings"), ("one byte longer", 8, b"pumpings!", b"pumpings"),
            ("much longer", 8, b"abcdefgh" + b"x" * 292, b"abcdefgh"), ("size 4", 4, b"pump", b"pump"),
            ("size 4, cut", 4, b"pumps", b"pump"), ("size 64", 64, b"0123456789abcdef" * 4, b"0123456789abcdef" * 4),
            ("size 64, cut", 64, b"z" * 65, b"z" * 64), ("size 64, short", 64, b"z", b"z"),
            ("high bytes", 8, b"\x80\xff\x7f\xc3\xa9", b"\x80\xff\x7f\xc3\xa9"), ("byte one", 8, b"\x01", b"\x01"),
            ("quotes", 8, b'A"\n\\', b'A"\n\\')]
    for title, size, given, stored in rows:
        ends = changed(fresh(2, 2, size).at(1), entries=[entry(PUMP, stored), FREE], slots=[slot(), [0] * 8])
        case(f"name: {title}", pattern(48 + 2 * (16 + size) + 64), (formatting(size=size, entries=2), "done 2"),
             (registering(PUMP, given), "done 0"), (recording(slot()), "done 0"),
             (listed(), dict(name=[stored.decode("latin-1")])), ends=ends)
    live, gone = dict(gone=[False] * 2), dict(gone=[True] * 2)
    case("names come and go", plain(168), (formatting(entries=1), "done 3"), (recording(slot()), "done 0"),
         (recording(slot(ISR, PUMP)), "done 1"), (listed(), dict(name=[None, None], **live)),
         (registering(PUMP, b"first"), "done 0"), (listed(), dict(name=["first"] * 2, **live)), (removing(PUMP), "done 0"),
         (listed(), dict(name=["first"] * 2, **gone)), (registering(PUMP, b"2nd"), "done 0"),
         (listed(), dict(name=["2nd"] * 2, **live)), (removing(PUMP), "done 0"), (registering(PUMP, b"queue", 2), "done 0"),
         (listed(), dict(name=[None, None], **live)), (removing(PUMP), "done 0"), (listed(), dict(name=[None, None], **live)))


def removed_names():
    """A removed thread's name is found as gone until its entry is used again. Names lie at 64, 88 and 112."""
    old, used = entry(PUMP, b"old", flag=1), [slot(), slot(ISR, PUMP), [0] * 8]
    case("removed, found", plain(192), (formatting(entries=2), "done 3"), (naming(PUMP), "null 0"), (naming(0), "null 0"),
         (registering(PUMP, b"pump", one=7, two=8, reserved=b"\xab\xcd"), "done 0"), (naming(PUMP), '"pump" live 4 64'),
         (recording(slot()), "done 0"), (recording(slot(ISR, PUMP)), "done 1"), (removing(PUMP), "done 0"),
         (naming(PUMP), '"pump" gone 4 64'), (removing(PUMP), "22 0"), (naming(PUMP), '"pump" gone 4 64'),
         (listed(), dict(name=["pump"] * 2, gone=[True] * 2)), (naming(0), "null 0"),
         ends=changed(fresh(2, 3).at(2), entries=[entry(PUMP, b"pump", 1, 1, b"\xab\xcd", 7, 8), FREE], slots=used))
    for kind, found in ((1, '"valve" live 5 64'), (2, "null 0")):
        case(f"removed, type {kind} in its place", holding(entry(PUMP, b"pump"), FREE), (removing(PUMP), "done 0"),
             (registering(VALVE, b"valve", kind), "done 0"), (naming(PUMP), "null 0"), (naming(VALVE), found),
             (removing(VALVE), "done 0"), (naming(PUMP), "null 0"), (naming(VALVE), found.replace("live", "gone")),
             ends=holding(entry(VALVE, b"valve", 1, kind), FREE))
    case("removed, no more room", holding(old, entry(VALVE, b"valve")), (registering(ALARM, b"alarm"), "done 0"),
         (naming(PUMP), "null 0"), (registering(PUMP, b"pump"), "21 0"), (naming(PUMP), "null 0"))
    case("removed, refused in its place", holding(old), (registering(ALARM, b"alarm", 0), "19 0"),
         (registering(ALARM, b"\0"), "23 0"), (naming(PUMP), '"old" gone 3 64'), (naming(ALARM), "null 0"), ends=holding(old))
    case("removed twice", plain(176), (formatting(entries=2), "done 2"), (registering(VALVE, b"valve"), "done 0"),
         (registering(PUMP, b"first"), "done 1"), (removing(VALVE), "done 0"), (removing(PUMP), "done 1"),
         (registering(PUMP, b"2nd"), "done 0"), (naming(PUMP), '"2nd" live 3 64'), (removing(PUMP), "done 0"),
         (naming(PUMP), '"2nd" gone 3 64'), (registering(ALARM, b"alarm"), "done 0"), (naming(PUMP), '"first" gone 5 88'),
         (registering(VALVE, b"again"), "done 1"), (naming(PUMP), "null 0"),
         ends=changed(fresh(2, 2, tail=plain(16)), entries=[entry(ALARM, b"alarm"), entry(VALVE, b"again")]))
    again = {"in the same entry": ([entry(VALVE, b"valve"), old, FREE], 88, "done 1", 88),
             "in a lower one": ([FREE, entry(VALVE, b""), old], 112, "done 0", 64),
             "in the lowest of three": ([old, old, old], 64, "done 0", 64)}
    for title, (entries, before, answer, place) in again.items():
        case(f"registered again {title}", holding(*entries), (naming(PUMP), f'"old" gone 3 {before}'),
             (registering(PUMP, b"new"), answer), (naming(PUMP), f'"new" live 3 {place}'), (removing(PUMP), answer),
             (naming(PUMP), f'"new" gone 3 {place}'))
    case("registered again as a queue", holding(FREE, old), (registering(PUMP, b"queue", 2), "done 0"),
         (naming(PUMP), '"old" gone 3 88'), (removing(PUMP), "done 0"), (naming(PUMP), '"old" gone 3 88'))
    asked = [(naming(PUMP), '"pump" live 4 88'), (naming(ALARM), '"alarm" gone 5 112'), (naming(VALVE), "null 0")]
    for kind in (2, 14, 21, 28):
        others = [entry(PUMP, b"pump"), entry(ALARM, b"alarm", flag=1)]
        case(f"type {kind} removed", holding(entry(VALVE, b"other", kind=kind), *others), *asked, (removing(VALVE), "done 0"),
             *asked, ends=holding(entry(VALVE, b"other", 1, kind), *others))
    case("a queue of the same pointer removed", holding(entry(PUMP, b"queue", kind=2), entry(PUMP, b"pump")),
         (naming(PUMP), '"pump" live 4 88'), (removing(PUMP), "done 0"), (naming(PUMP), '"pump" live 4 88'),
         (removing(PUMP), "done 1"), (naming(PUMP), '"pump" gone 4 88'))
    case("one of two threads removed", holding(entry(PUMP, b"pump"), entry(PUMP, b"late", 2)), (naming(PUMP), '"pump" live 4 64'),
         (removing(PUMP), "done 0"), (naming(PUMP), '"late" live 4 88'), (removing(PUMP), "done 1"),
         (naming(PUMP), '"pump" gone 4 64'), (removing(PUMP), "22 0"), (naming(PUMP), '"pump" gone 4 64'))
    for pointer in (0, INIT, ISR):
        case(f"pointer {pointer:#x} removed", plain(168), (formatting(entries=1), "done 3"), (naming(pointer), "null 0"),
             (registering(pointer, b"pump"), "done 0"), (naming(pointer), '"pump" live 4 64'), (removing(pointer), "done 0"),
             (naming(pointer), '"pump" gone 4 64'), (recording(slot(INIT, pointer)), "done 0"),
             (recording(slot(ISR, pointer)), "done 1"), (listed(), dict(name=[None, "pump"], gone=[False, True])))
    case("formatted again after a removal", holding(old, old), (naming(PUMP), '"old" gone 3 64'), (formatting(entries=2), "done 2"),
         (naming(PUMP), "null 0"), (naming(0), "null 0"), ends=fresh(2, 2))
    odd = holding(entry(PUMP, b"odd", kind=15), old)
    case("an odd type removed", odd, (naming(PUMP), "11 0"), (removing(PUMP), "done 0"), (naming(PUMP), '"old" gone 3 88'),
         (registering(VALVE, b"valve"), "done 0"), (registering(ALARM, b"alarm"), "done 1"), (naming(PUMP), "null 0"))


def names_over_time():
    """Writes, registrations and removals, taken and refused: names and kinds are those of the registry when it is read."""
    case("names over a history", plain(192), (formatting(entries=2), "done 3"), (registering(PUMP, b"pump"), "done 0"),
         (recording(slot(PUMP, 16, 1, 10)), "done 0"), (registering(VALVE, b"valve"), "done 1"),
         (recording(slot(VALVE, 16, 2, 20)), "done 1"), (listed(), dict(id=[1, 2], name=["pump", "valve"], gone=[False, False])),
         (removing(PUMP), "done 0"), (recording(slot(0)), "17 0"), (recording(slot(ISR, PUMP, 3, 30)), "done 2"),
         (listed(), dict(id=[1, 2, 3], name=["pump", "valve", "pump"], gone=[True, False, True])),
         (recording(slot(INIT, PUMP, 4, 40)), "done 0"), (removing(PUMP), "22 0"),
         (listed(), dict(id=[2, 3, 4], name=["valve", "pump", None], gone=[False, True, False])),
         (registering(ALARM, b"alarm", 15), "19 0"), (registering(VALVE, b"again"), "20 1"), (registering(ALARM, b"alarm"), "done 0"),
         (recording(slot(ALARM, 16, 5, 50)), "done 1"),
         (listed(), dict(id=[3, 4, 5], name=[None, None, "alarm"], gone=[False, False, False])),
         (removing(VALVE), "done 1"), (registering(PUMP, b"again"), "done 1"), (recording(slot(PUMP, 16, 6, 60)), "done 2"),
         (listed(), dict(id=[4, 5, 6], name=[None, "alarm", "again"], gone=[False, False, False])),
         (removing(ALARM), "done 0"), (removing(PUMP), "done 1"), (recording(slot(ALARM, ident=0)), "18 0"),
         (listed(), dict(id=[4, 5, 6], ticks=[0, 10, 20], name=[None, "alarm", "again"], gone=[False, True, True])),
         ends=changed(fresh(2, 3), entries=[entry(ALARM, b"alarm", 1), entry(PUMP, b"again", 1)],
                      slots=[slot(INIT, PUMP, 4, 40), slot(ALARM, 16, 5, 50), slot(PUMP, 16, 6, 60)]))


def reserved_bytes():
    """Stored for a thread, and 0 for every other type."""
    for kind in (1, 2, 3, 14, 21, 28):
        for given in (b"\xab\xcd", b"\x01\x00", b"\x00\x01"):
            spare = given if kind == 1 else b"\0\0"
            old = entry(ALARM, b"", flag=1, spare=b"\x77\x88")
            case(f"reserved {given.hex()}, type {kind}", holding(old),
                 (registering(PUMP, b"pump", kind, 0x01020304, 0xF5F6F7F8, given), "done 0"),
                 ends=holding(entry(PUMP, b"pump", 0, kind, spare, 0x01020304, 0xF5F6F7F8)))


def damaged():
    """1 to 10 refuse every call that reads the header. Formatting does not read it."""
    for refusal, title, dump in broken():
        if int(refusal.split()[0]) in OF_THE_HEADER:
            case(f"refusal {refusal}, {title}", dump, (recording(slot()), refusal),
                 (registering(ALARM, b"alarm"), refusal), (removing(PUMP), refusal))
            case(f"refusal {refusal}, {title}, the call at fault too", dump, (recording(slot(0, ident=0)), refusal),
                 (registering(PUMP, b"\0", 0), refusal), (removing(VALVE), refusal))
    case("format over a bad header", changed(Dump(), id=0, mask=0, name_size=3), (formatting(), "done 6"),
         ends=fresh(0, 6, tail=bytes(8)))


def unsound():
    """11, 12 and 13 are not asked by the writing calls."""
    odd = changed(sound(), entries=[entry(PUMP, b"pump"), entry(VALVE, b"bad", kind=15), FREE])
    case("11 broken", odd, (listed(), "11 1"), (recording(slot(ident=9)), "done 2"),
         (registering(ALARM, b"alarm"), "done 2"), (registering(VALVE, b"valve"), "20 1"), (listed(), "11 1"),
         (removing(VALVE), "done 1"), (listed(), dict(id=[5, 5, 9])))
    for row, dump, answer, filled in ((12, Dump().use(1, 3).at(2), "12 0", 2), (13, no_id(1), "13 1", 3)):
        dump.entries[2][0] = 1
        case(f"{row} broken", dump, (listed(), answer), (recording(slot(ident=9)), f"done {filled}"),
             (registering(ALARM, b"alarm"), "done 2"), (removing(PUMP), "done 0"), (listed(), answer))
    gap = Dump().use(0, 2).at(1)
    case("12 mended by recording", gap, (listed(), "12 2"), (recording(slot(ident=9)), "done 1"), (listed(), "12 3"),
         (recording(slot(ident=10)), "done 2"), (listed(), dict(id=[5, 9, 10])))


def orders():
    """Two rows broken at once: the one that the call asks first is given."""
    case("2 before 4, 5 and 24", plain(65537), (formatting(mask=0, size=3, entries=TWO_64 - 1), "2 0"),
         (formatting(mask=5), "2 0"), (formatting(size=3), "2 0"), (formatting(entries=9999), "2 0"))
    case("4 before 5 and 24", plain(10), (formatting(mask=0, size=3), "4 0"), (formatting(mask=5), "4 0"),
         (formatting(mask=0xFF00, size=3, entries=TWO_64 - 1), "4 0"))
    case("5 before 24", plain(10), (formatting(size=3), "5 0"), (formatting(size=65535, entries=TWO_64 - 1), "5 0"))
    case("24 alone", plain(10), (formatting(), "24 0"))
    off = lambda: sound(current=0)
    case("10 before 17 and 18", off(), (recording(slot(0)), "10 0"), (recording(slot(ident=0)), "10 0"))
    case("10 before 19, 23, 20 and 22", off(), (registering(ALARM, b"", 0), "10 0"),
         (registering(ALARM, b"\0"), "10 0"), (registering(PUMP, b""), "10 0"), (removing(VALVE), "10 0"))
    case("10 before 21", changed(Dump(), current=0), (registering(ALARM, b""), "10 0"))
    case("2 before 3 and the rest", sound(id=0, cut=65537), (recording(slot(0)), "2 0"),
         (registering(PUMP, b"\0", 0), "2 0"), (removing(VALVE), "2 0"))
    case("17 before 18", sound(), (recording(slot(0, ident=0)), "17 0"))
    case("19 before 23 and 20", sound(), (registering(PUMP, b"\0", 15), "19 0"), (registering(ALARM, b"\0", 0), "19 0"),
         (registering(PUMP, b"", 20), "19 0"))
    case("23 before 20", sound(), (registering(PUMP, b"\0"), "23 0"), (registering(PUMP + 1, b"123456789\0"), "23 0"),
         (registering(PUMP + 1, b"x"), "20 1"))
    case("19, 23 and 20 before 21", Dump(), (registering(ALARM, b"", 29), "19 0"), (registering(ALARM, b"\0"), "23 0"),
         (registering(PUMP + 2, b""), "20 2"), (registering(ALARM, b""), "21 0"))


# Seeded cases.

POINTERS = (PUMP, VALVE, ALARM, INIT, ISR, 1)
OBJECTS = (0, PUMP, PUMP, VALVE, ALARM)


def sound_format(chance):
    return Format(chance.one(*WORDS), chance.one(0, 0x20000000, 0xFFFFFF00, 0xFFFFFFE0, chance.bits(32)),
                  (1 << 1 + chance.below(32)) - 1, 4 + 4 * chance.below(16), chance.below(5))


def seeded_format(chance):
    """A format that may be refused, or not fit the buffer."""
    given = sound_format(chance)
    field, bits = chance.one(("mask", 32), ("name_size", 16), ("entries", 64), (None, 0), (None, 0), (None, 0))
    return "f", (given if field is None else given._replace(**{field: chance.bits(bits)}),)


def seeded_object(chance):
    called = bytes(1 + b % 255 for b in chance.bytes(chance.below(chance.one(4, 9, 70))))
    called += chance.one(*[b""] * 11, b"\0")
    return registering(chance.one(*OBJECTS), called, chance.one(1, 1, 1, 1, 2, 14, 21, 28, chance.below(32)),
                       chance.bits(32), chance.bits(32), chance.bytes(2))


def seeded_call(chance):
    kind = chance.below(20)
    if kind < 11:
        pointer = chance.one(*POINTERS, *POINTERS, 0)
        ident = chance.one(*[1 + chance.below(2000)] * 11, 0)
        return recording([pointer, chance.one(0, *POINTERS), ident, *(chance.bits(32) for _ in range(5))])
    if kind < 16:
        return seeded_object(chance)
    return removing(chance.one(*OBJECTS)) if kind < 19 else seeded_format(chance)


def seeded_dump(chance):
    """A dump made by hand, now and then with some damage."""
    dump = Dump(chance.below(5), 1 + chance.below(5), 4 + 4 * chance.below(4),
                chance.one(0, 0x20000000, 0xFFFFFF00, 0xFFFFFFE0))
    dump.use(*range(chance.below(len(dump.slots) + 1))).at(chance.below(len(dump.slots)))
    for i in range(len(dump.entries)):
        dump.entries[i] = entry(chance.one(*OBJECTS), b"old", chance.one(0, 1, 1, 2, 255), chance.one(1, 1, 2, 28),
                                chance.bytes(2), chance.bits(32), chance.bits(32))
    for _ in range(chance.one(0, 0, 0, 1)):
        damage(dump, chance)
    dump.tail = chance.bytes(chance.below(3) * 11)
    return dump


def seeded(index, chance):
    """A history: a dump made by hand, or bytes and a format that fits; then calls, and names and a listing at the end."""
    reading = Reading(chance.one(1, 3, 1000000, chance.bits(32)), chance.one(0, 8192, chance.bits(24)), chance.bits(40))
    calls = [seeded_call(chance) for _ in range(2 + chance.below(16))]
    calls += [naming(pointer) for pointer in sorted({*OBJECTS})] + [listed(reading)]
    steps = [(call, None) for call in calls]
    if chance.below(4) == 0:
        return Case(f"seeded {index}", seeded_dump(chance), steps, None)
    first = sound_format(chance)
    length = 48 + first.entries * (16 + first.name_size) + 32 * (1 + chance.below(6)) + chance.below(32)
    return Case(f"seeded {index}", bytes([chance.below(256)]) * length, [(("f", (first,)), None), *steps], None)


# The replies.

WRITING = {"f": format_buffer, "w": record, "o": register, "x": remove}


def answer_to(letter, given, buffer):
    """The answer of a writing call, which changes the buffer unless it refuses."""
    before = bytes(buffer)
    kind, number, *place = WRITING[letter](buffer, *given)
    if kind == "done":
        return f"done {number}"
    assert bytes(buffer) == before
    return f"{number} {place[0]}"


def agrees(by_hand, given):
    """Whether an answer is what the step says by hand: the answer itself, or some fields of each event in it."""
    if by_hand is None or isinstance(by_hand, str):
        return by_hand in (None, given)
    events = [json.loads(text) for text in given.splitlines()]
    return all([event[field] for event in events] == values for field, values in by_hand.items())


def reply_to(letter, given, buffer):
    """A call's answer, and the reply that the program must print."""
    if letter == "b":
        return buffer.hex(), buffer.hex()
    if letter in WRITING:
        answer = answer_to(letter, given, buffer)
        return answer, f"{answer} {digest(bytes(buffer))}"
    try:
        if letter == "n":
            found = found_name(find_name(bytes(buffer), *given))
            return found, found
        text = listing(bytes(buffer), *given)
        return text, written(text)
    except Refused as refusal:
        return str(refusal), f"{refusal} 0"


def steps_of(made, length, order):
    """The steps; a small buffer of a named case is shown whole at the end."""
    if made.ends is None and (made.name.startswith("seeded") or length > MOST_IN_HEX):
        return made.steps
    return [*made.steps, (ALL_BYTES, made.ends and made.ends.bytes(order).hex())]


def add(made, order, title, cases):
    """Puts a case into the file, with what it must print."""
    before = made.buffer.bytes(order) if isinstance(made.buffer, Dump) else made.buffer
    buffer, calls = bytearray(before), []
    for (letter, given), by_hand in steps_of(made, len(buffer), order):
        if letter == "f" and given[0].order is None:
            given = (given[0]._replace(order=order),)
        assert letter != "b" or len(buffer) <= MOST_IN_HEX
        answer, reply = reply_to(letter, given, buffer)
        if not agrees(by_hand, answer):
            sys.exit(f"{title}, {letter}: by hand {by_hand}, by rule {answer}")
        calls.append((letter, given, reply))
    cases.add(title, before, calls)


GROUPS = (whole_case, tops, lengths, masks, name_sizes, rooms, counts, leftovers, turned, writes, rings, stamps, kept,
          types, same_pointer, no_room, removals, zeros, names, removed_names, names_over_time, reserved_bytes, damaged,
          unsound, orders)
cases = Cases()
for group in GROUPS:
    group()
for order, word in WORDS.items():
    for named in CASES:
        add(named, order, f"{named.name}, {word}", cases)

chance = Chance(2028)
for index in range(300):
    history = seeded(index, chance)
    add(history, chance.one(*WORDS), history.name, cases)

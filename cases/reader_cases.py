"""The questions that the program `cases` puts to the reader, and what it must print.

The answers come from reader.py, which is written from the documents and not from our code. A named case
also says by hand what must come, whole or in part, and the two must agree, or nothing is written. The
seeded cases have reader.py's word alone. Every line is read by Python's JSON parser, and must give the
values that it was made of.
"""
import json
import sys
from collections import namedtuple

from dumps import (ALARM, INIT, ISR, OF_THE_HEADER, PUMP, VALVE, WORDS, Dump, Refused, bad_type, broken, changed, damage,
                   entry, no_id, slot)
from form import Cases, found_name, shown_event, written
from made import Chance
from reader import Reading, find_name, listing, one_event, one_line, read_events, read_fields
from texts import DOCUMENT, LIMIT, line, read_back

TWO_40 = 1 << 40
LAST = (1 << 64) - 1
PLAIN = Reading(rate=1000000, unit=0, serial=0)

# By hand: the reply itself, or a list of values for some of the fields; nothing where the case is seeded.
Case = namedtuple("Case", "name kind dump reading position pointer room by_hand")
CASES = []


# How much room a text gets, by its length and the number of its lines.

def some(length, lines):
    """A little more than it needs."""
    return length + 7


def exact(length, lines):
    return length


def short(length, lines):
    return max(length - 1, 0)


def plenty(length, lines):
    """So much that no listing of so many lines needs it."""
    return 800 * lines


def of(room):
    """So much, whatever the text."""
    return lambda length, lines: room


# What is asked.

def an_event(title, dump, position, by_hand):
    CASES.append(Case(title, "e", dump, PLAIN, position, 0, of(0), by_hand))


def a_name(title, dump, pointer, by_hand):
    CASES.append(Case(title, "n", dump, PLAIN, 0, pointer, of(0), by_hand))


def a_line(title, dump, position, by_hand, reading=PLAIN, room=some):
    CASES.append(Case(title, "l", dump, reading, position, 0, room, by_hand))


def a_listing(title, dump, by_hand, reading=PLAIN, room=some):
    CASES.append(Case(title, "a", dump, reading, 0, 0, room, by_hand))


def both(title, dump, reading, by_hand):
    """A reply that is the same for the listing and for the first line."""
    a_listing(f"{title}, listing", dump, by_hand, reading)
    a_line(f"{title}, line", dump, 0, by_hand, reading)


def each(title, dump, reading=PLAIN, **by_hand):
    """The listing, and each line and each event by position. An event has no key and no microseconds."""
    a_listing(title, dump, by_hand, reading)
    for position in range(len(next(iter(by_hand.values())))):
        here = {field: [values[position]] for field, values in by_hand.items()}
        a_line(f"{title}, line {position}", dump, position, here, reading)
        shown = {field: values for field, values in here.items() if field not in ("key", "us")}
        if shown:
            an_event(f"{title}, event {position}", dump, position, shown)


def told(found, count):
    """What so many lines say of a name, by the reply to finding it."""
    if found == "null 0":
        return dict(name=[None] * count, gone=[False] * count)
    text, kind, _, _ = found.rsplit(" ", 3)
    return dict(name=[json.loads(text)] * count, gone=[kind == "gone"] * count)


# What dumps hold.

def removed(pointer, called, kind=1):
    """A free entry with its old contents."""
    return entry(pointer, called, 1, kind)


# An entry as formatting leaves it.
FRESH = removed(0, b"", 0)


def holding(slots, *entries, current=None, size=8, mask=0xFFFF, base=0x20000000):
    """A dump of these; with no current given, the ring has not gone round and an unused slot follows."""
    slots = list(slots) if current is not None else [*slots, [0] * 8]
    dump = Dump(len(entries), len(slots), size, base)
    dump.at(len(slots) - 1 if current is None else current)
    return changed(dump, slots=slots, entries=list(entries), mask=mask)


def stamped(*stamps, mask=0xFFFF):
    return holding([slot(stamp=stamp) for stamp in stamps], mask=mask)


def numbered(used, slots, current):
    """A ring whose slot i has the event id i + 1."""
    dump = Dump(entries=1, slots=slots).at(current)
    dump.slots[:used] = [slot(ident=i + 1, stamp=100 + i) for i in range(used)]
    return dump


# The cases.

def whole_case():
    slots = [slot(0x20002000, 16, 6, 20, (7, 0, 0, 0)), slot(PUMP, 16, 5, 65500), slot(ISR, PUMP, 1025, 20, (0, 0, 0, 0))]
    dump, gone = (holding(slots, entry(PUMP, b"pump", flag), current=1) for flag in (0, 1))
    assert dump.current == 0x20000000 + 104
    reading = Reading(rate=3000000, unit=8192, serial=0)
    lines = DOCUMENT.splitlines(keepends=True)
    for title, room in (("some room", some), ("exact room", exact), ("plenty of room", plenty)):
        a_listing(f"whole case, {title}", dump, written(DOCUMENT), reading, room)
        for position in range(3):
            a_line(f"whole case, line {position}, {title}", dump, position, written(lines[position]), reading, room)
    a_line("whole case, line 3", dump, 3, "25 0 0", reading)
    an_event("whole case, event 0", dump, 0, '536875008 16 5 65500 1 2 3 4 0 thread "pump" live')
    an_event("whole case, event 1", dump, 1, '4294967295 536875008 1025 20 0 0 0 0 56 isr "pump" live')
    an_event("whole case, event 2", dump, 2, "536879104 16 6 20 7 0 0 0 56 thread null")
    an_event("whole case, event 3", dump, 3, "25 0")
    a_name("whole case, name of the thread", dump, PUMP, '"pump" live 4 64')
    a_name("whole case, name of another", dump, 0x20002000, "null 0")
    a_listing("whole case, gone", gone, written(DOCUMENT.replace('"pump","gone":false', '"pump","gone":true')), reading)
    an_event("whole case, gone, event 0", gone, 0, '536875008 16 5 65500 1 2 3 4 0 thread "pump" gone')
    an_event("whole case, gone, event 1", gone, 1, '4294967295 536875008 1025 20 0 0 0 0 56 isr "pump" gone')
    an_event("whole case, gone, event 2", gone, 2, "536879104 16 6 20 7 0 0 0 56 thread null")
    a_name("whole case, gone, name of the thread", gone, PUMP, '"pump" gone 4 64')


def rings():
    each("gone round, current in the middle", numbered(5, 5, 2), id=[3, 4, 5, 1, 2], key=[0, 1, 2, 3, 4])
    each("gone round, current at 0", numbered(5, 5, 0), id=[1, 2, 3, 4, 5])
    each("gone round, current at the last slot", numbered(5, 5, 4), id=[5, 1, 2, 3, 4])
    each("gone round, one slot", numbered(1, 1, 0), id=[1], ticks=[0], us=[0])
    each("not gone round", numbered(3, 5, 3), id=[1, 2, 3], ticks=[0, 1, 2])
    each("not gone round, one event", numbered(1, 5, 1), id=[1])
    each("not gone round, all but the last slot", numbered(4, 5, 4), id=[1, 2, 3, 4])
    top = Dump(entries=4, slots=4, name_size=4, base=0xFFFFFF00).use(0, 1, 2, 3).at(3)
    each("top of memory, end pointer 0", top, ticks=[0, 65533, 65534, 65535], name=["pump"] * 4)
    for title, empty in (("empty ring", Dump()), ("empty ring of one slot", Dump(entries=0, slots=1))):
        for room in (0, 1, 300):
            a_listing(f"{title}, room {room}", empty, "0 0", room=of(room))
        an_event(f"{title}, event 0", empty, 0, "25 0")
        a_line(f"{title}, line 0", empty, 0, "25 0 0")


def full():
    """65,536 bytes with no registry: 2,046 slots, each 100 ticks after the one before; and 65,537 bytes."""
    slots = [slot(ident=i + 1, stamp=(i - 700) % 2046 * 100, info=(0, 0, 0, i)) for i in range(2046)]
    dump = changed(holding(slots, current=700), cut=65536)
    ids = [*range(701, 2047), *range(1, 701)]
    steps = [100 * i for i in range(2046)]
    by_hand = dict(key=list(range(2046)), ticks=steps, us=steps, id=ids, name=[None] * 2046)
    a_listing("65,536 bytes, 2,046 events", dump, by_hand, room=of(1500000))
    a_listing("65,536 bytes, one byte short", dump, "16 0 0", room=short)
    a_line("65,536 bytes, line 2045", dump, 2045, dict(id=[700], ticks=[204500]))
    a_name("65,537 bytes", changed(Dump(), cut=65537), PUMP, "2 0 0")


def contexts():
    for title, flag, gone in (("", 0, False), (", gone", 1, True)):
        entries = [entry(PUMP, b"pump", flag), entry(INIT, b"init", flag), entry(ISR, b"isr", flag), entry(0, b"zero", flag)]
        each(f"contexts{title}", holding([slot(INIT), slot(ISR, PUMP), slot(PUMP)], *entries),
             by=["init", "isr", "thread"], name=[None, "pump", "pump"], gone=[False, gone, gone])
        fields = [slot(ISR, field) for field in (INIT, ISR, 0, PUMP, 1)]
        each(f"isr by the field{title}", holding(fields, *entries), by=["isr"] * 5,
             name=["init", "isr", "zero", "pump", None], gone=[gone, gone, gone, gone, False])
        inits = [slot(INIT, field) for field in (INIT, ISR, 0, PUMP)]
        each(f"init has no name{title}", holding(inits, *entries), by=["init"] * 4, name=[None] * 4, gone=[False] * 4)
        near = [slot(pointer, PUMP) for pointer in (0xF0F0F0F1, 0xF0F0F0EF, 0xFFFFFFFE, 0x0F0F0F0F, 1)]
        each(f"close to init and isr{title}", holding(near, *entries), by=["thread"] * 5, name=[None] * 5, gone=[False] * 5)
        each(f"thread whose field is another's{title}", holding([slot(VALVE, PUMP), slot(PUMP, VALVE)], *entries),
             name=[None, "pump"], gone=[False, gone])
    mixed = [slot(PUMP, VALVE), slot(ISR, VALVE), slot(VALVE, PUMP), slot(ISR, PUMP)]
    each("one in use and one gone", holding(mixed, entry(PUMP, b"pump"), removed(VALVE, b"valve")),
         name=["pump", "valve", "valve", "pump"], gone=[False, True, True, False])
    init = holding([slot(INIT, INIT), slot(ISR, INIT)], removed(INIT, b"init"))
    an_event("pointer of init gone, init", init, 0, "4042322160 4042322160 5 100 1 2 3 4 0 init null")
    an_event("pointer of init gone, isr", init, 1, '4294967295 4042322160 5 100 1 2 3 4 0 isr "init" gone')


def beside(pointer):
    """The next pointer that has the same place in the lister's index: bits 21 to 31 of a product."""
    def place(pointer):
        return pointer * 2654435769 >> 21 & 2047
    return next(other for other in range(pointer + 4, 2 ** 32, 4) if place(other) == place(pointer))


def neighbours():
    """The lister finds names by an index, in which pointers may share a place."""
    far = beside(VALVE)
    entries = [entry(PUMP, b"pump"), entry(VALVE, b"valve"), entry(INIT, b"init"), entry(0, b"zero"), entry(ISR, b""),
               entry(far, b"far")]
    # The same names, some of them gone; x, y and z are never found.
    some_gone = [removed(far, b"far"), removed(VALVE, b"x"), removed(PUMP, b"x"), removed(far, b"y"), entry(VALVE, b"valve"),
                 entry(PUMP, b"pump"), removed(ISR, b""), removed(INIT, b"init"), removed(ALARM, b"z", 2), entry(far, b"z", 0, 2),
                 removed(0, b"zero"), removed(VALVE, b"y"), removed(INIT, b"y")]
    rows = {
        "same pointer": ([slot(PUMP)] * 4, ["pump"] * 4),
        "alternating pointers": ([slot(PUMP), slot(VALVE)] * 3, ["pump", "valve"] * 3),
        "named and not": ([slot(ALARM), slot(PUMP), slot(ALARM), slot(ALARM), slot(PUMP)],
                          [None, "pump", None, None, "pump"]),
        "thread and isr of one": ([slot(PUMP), slot(ISR, PUMP)] * 3, ["pump"] * 6),
        "isr of another": ([slot(PUMP), slot(ISR, VALVE), slot(PUMP, VALVE), slot(ISR, ALARM)],
                           ["pump", "valve", "pump", None]),
        "init, isr of the same, init": ([slot(INIT), slot(ISR, INIT), slot(INIT), slot(INIT, PUMP), slot(ISR, INIT)],
                                        [None, "init", None, None, "init"]),
        "isr of init, then init": ([slot(ISR, INIT), slot(INIT, INIT), slot(ISR, INIT)], ["init", None, "init"]),
        "init between threads": ([slot(PUMP), slot(INIT, PUMP), slot(PUMP), slot(INIT, INIT), slot(ISR, PUMP)],
                                 ["pump", None, "pump", None, "pump"]),
        "isr of 0 first": ([slot(ISR, 0), slot(ISR, 0), slot(PUMP), slot(ISR, 0)], ["zero", "zero", "pump", "zero"]),
        "isr of isr": ([slot(ISR, ISR), slot(ISR, PUMP), slot(ISR, ISR), slot(PUMP, ISR)], ["", "pump", "", "pump"]),
        "two names at one place": ([slot(VALVE), slot(far)] * 3, ["valve", "far"] * 3),
        "a name and none at one place": ([slot(PUMP), slot(beside(PUMP))] * 3, ["pump", None] * 3),
        "three at one place": ([slot(far), slot(beside(far)), slot(ISR, VALVE), slot(far)] * 2,
                               ["far", None, "valve", "far"] * 2),
        "empty name and none": ([slot(ISR, ISR), slot(ALARM), slot(ISR, ISR), slot(ISR, ALARM)], ["", None, "", None]),
    }
    for title, (slots, names) in rows.items():
        gone = [name in ("far", "", "init", "zero") for name in names]
        for kind, held, said in (("", entries, [False] * len(names)), (", some gone", some_gone, gone)):
            a_listing(f"neighbours: {title}{kind}", holding(slots, *held), dict(name=names, gone=said))
            turned = holding(slots[2:] + slots[:2], *held, current=len(slots) - 2)
            a_listing(f"neighbours: {title}{kind}, gone round", turned, dict(name=names, gone=said))


def registries():
    """Which entry's name is found, by pointer and in a listing. Of three entries the names lie at 64, 88 and 112."""
    pump, late, old, older = entry(PUMP, b"pump"), entry(PUMP, b"late"), removed(PUMP, b"old"), removed(PUMP, b"older")
    rows = {
        "no entries": ([], "null 0"),
        "removed": ([old], '"old" gone 3 64'),
        "a queue": ([entry(PUMP, b"queue", kind=2)], "null 0"),
        "type 14": ([entry(PUMP, b"last", kind=14)], "null 0"),
        "type 21": ([entry(PUMP, b"more", kind=21)], "null 0"),
        "another pointer": ([entry(PUMP + 1, b"next")], "null 0"),
        "another pointer, removed": ([removed(PUMP + 1, b"next"), removed(PUMP - 1, b"last")], "null 0"),
        "two with one pointer": ([pump, late], '"pump" live 4 64'),
        "the lowest removed": ([old, pump], '"pump" live 4 88'),
        "the highest removed": ([pump, old], '"pump" live 4 64'),
        "the lowest a queue": ([entry(PUMP, b"queue", kind=2), pump, late], '"pump" live 4 88'),
        "removed, queue, thread": ([old, entry(PUMP, b"queue", 0, 2), entry(PUMP, b"pump", 2)], '"pump" live 4 112'),
        "a removed one of a bad type": ([removed(PUMP, b"old", 99), entry(VALVE, b"valve"), pump], '"pump" live 4 112'),
        "two removed": ([older, old], '"older" gone 5 64'),
        "three removed": ([old, older, removed(PUMP, b"oldest")], '"old" gone 3 64'),
        "two in use, the lowest removed": ([old, pump, late], '"pump" live 4 88'),
        "two in use, the middle removed": ([late, old, pump], '"late" live 4 64'),
        "two in use, the highest removed": ([pump, late, old], '"pump" live 4 64'),
        "in use between two removed": ([old, pump, older], '"pump" live 4 88'),
        "in use behind two removed": ([old, older, pump], '"pump" live 4 112'),
        "removed behind others": ([entry(VALVE, b"valve"), removed(ALARM, b"alarm"), old], '"old" gone 3 112'),
        "removed behind fresh entries": ([FRESH, FRESH, old], '"old" gone 3 112'),
        "fresh entries": ([FRESH, FRESH], "null 0"),
        "in use with an empty name, removed": ([old, entry(PUMP, b"")], '"" live 0 88'),
        "removed with an empty name, removed": ([removed(PUMP, b""), old], '"" gone 0 64'),
    }
    for flag in (0, 2, 255):
        rows[f"flag {flag}"] = ([entry(PUMP, b"pump", flag)], '"pump" live 4 64')
        rows[f"removed, flag {flag}"] = ([old, older, entry(PUMP, b"pump", flag)], '"pump" live 4 112')
        rows[f"removed, a queue of flag {flag}"] = ([entry(PUMP, b"queue", flag, 2), old], '"old" gone 3 88')
    for kind in (0, 2, 14, 99, 255):
        other = removed(PUMP, b"other", kind)
        rows[f"free, type {kind}"] = ([other], "null 0")
        rows[f"free, type {kind}, then a removed one"] = ([other, old], '"old" gone 3 88')
    for kind in (14, 21, 28):
        rows[f"removed, then type {kind} in use"] = ([old, entry(PUMP, b"other", 0, kind)], '"old" gone 3 64')
    for title, (entries, found) in rows.items():
        dump = holding([slot(PUMP), slot(ISR, PUMP)], *entries)
        a_name(f"registry: {title}", dump, PUMP, found)
        each(f"registry: {title}", dump, **told(found, 2))


def names():
    """A name runs to its first zero byte or the name size; its text is escaped."""
    rows = [
        ("empty", 8, b"", '"" 0'),
        ("zero byte first", 8, b"\0pump", '"" 0'),
        ("bytes past the first zero", 8, b"pu\0mp\0\0x", '"pu" 2'),
        ("full size 4", 4, b"pump", '"pump" 4'),
        ("full size 8", 8, b"abcdefgh", '"abcdefgh" 8'),
        ("full size 64", 64, b"0123456789abcdef" * 4, '"' + "0123456789abcdef" * 4 + '" 64'),
        ("one below full size 64", 64, b"z" * 63, '"' + "z" * 63 + '" 63'),
        ("one byte of 64", 64, b"z", '"z" 1'),
        ("document 01's escapes", 8, b'A"\n', r'"A\"\u000a" 3'),
        ("backslashes", 8, b"\\\\\\", r'"\\\\\\" 3'),
        ("solidus", 8, b"a/b", '"a/b" 3'),
        ("edges of the plain bytes", 8, b"\x1f\x20\x7e\x7f", r'"\u001f ~\u007f" 4'),
        ("high bytes", 8, b"\x80\xff\xc3\xa9", r'"\u0080\u00ff\u00c3\u00a9" 4'),
        ("controls", 8, b"\b\f\r\t\x01", r'"\u0008\u000c\u000d\u0009\u0001" 5'),
        ("64 bytes of ff", 64, b"\xff" * 64, '"' + r"\u00ff" * 64 + '" 64'),
        ("null by name", 8, b"null", '"null" 4'),
    ]
    four = [bytes(range(max(1, first), first + 64)) for first in (0, 64, 128, 192)]
    for flag, kind, rooms in ((0, "live", (some, exact, short, plenty)), (1, "gone", (exact, short))):
        for title, size, called, by_hand in rows:
            text, length = by_hand.rsplit(" ", 1)
            found = f"{text} {kind} {length} 64"
            dump = holding([slot(PUMP), slot(ISR, PUMP)], entry(PUMP, called, flag), entry(VALVE, b"next"), size=size)
            a_name(f"name: {title}, {kind}", dump, PUMP, found)
            an_event(f"name: {title}, {kind}, event 1", dump, 1, told(found, 1))
            for room in rooms:
                said = "16 0 0" if room is short else told(found, 2)
                a_listing(f"name: {title}, {kind}, {room.__name__}", dump, said, room=room)
        last = holding([slot(VALVE)], entry(PUMP, b"pump"), entry(VALVE, b"valves!!", flag))
        a_name(f"name: full size before the slots, {kind}", last, VALVE, f'"valves!!" {kind} 8 88')
        every = holding([slot(PUMP + i) for i in range(4)], *[entry(PUMP + i, four[i], flag) for i in range(4)], size=64)
        a_listing(f"name: every byte, {kind}", every,
                  dict(name=[called.decode("latin-1") for called in four], gone=[kind == "gone"] * 4))
        many = holding([slot(PUMP + 99), slot(PUMP), slot(PUMP + 100)],
                       *[entry(PUMP + i, b"%d" % i, flag) for i in range(100)], size=4)
        a_name(f"many entries, the first, {kind}", many, PUMP, f'"0" {kind} 1 64')
        a_name(f"many entries, the last, {kind}", many, PUMP + 99, f'"99" {kind} 2 2044')
        a_name(f"many entries, none, {kind}", many, PUMP + 100, "null 0")
        a_listing(f"many entries, listing, {kind}", many,
                  dict(name=["99", "0", None], gone=[kind == "gone", kind == "gone", False]))
    ends = [removed(PUMP, b"old"), *[removed(PUMP, b"no", 2)] * 97, removed(PUMP, b"late"), entry(PUMP, b"pump")]
    a_name("many entries, in use at the last alone", holding([slot()], *ends, size=4), PUMP, '"pump" live 4 2044')
    a_name("many entries, gone at both ends", holding([slot()], *ends[:-1], size=4), PUMP, '"old" gone 3 64')
    a_name("many entries, gone at the last alone", holding([slot()], *ends[1:-1], size=4), PUMP, '"late" gone 4 2004')


def finding():
    """The pointer given is matched whatever its context; 12 and 13 are not asked."""
    for flag, kind in ((0, "live"), (1, "gone")):
        dump = holding([slot()], entry(0, b"zero", flag), entry(ISR, b"isr", flag), entry(INIT, b"init", flag))
        a_name(f"find pointer 0, {kind}", dump, 0, f'"zero" {kind} 4 64')
        a_name(f"find pointer 0xffffffff, {kind}", dump, ISR, f'"isr" {kind} 3 88')
        a_name(f"find pointer 0xf0f0f0f0, {kind}", dump, INIT, f'"init" {kind} 4 112')
        a_name(f"find no such pointer, {kind}", dump, PUMP, "null 0")
        for pointer in (0, ISR, INIT):
            other = holding([slot()], entry(PUMP, b"pump", flag))
            a_name(f"find {pointer:#x} where no entry has it, {kind}", other, pointer, "null 0")
        turns, ids = Dump().use(1, 3).at(2), no_id(1)
        turns.entries[0][0] = ids.entries[0][0] = flag
        a_name(f"find where 12 is broken, {kind}", turns, PUMP, f'"pump" {kind} 4 64')
        a_name(f"find where 13 is broken, {kind}", ids, PUMP, f'"pump" {kind} 4 64')
        a_name(f"find none where 12 is broken, {kind}", turns, ALARM, "null 0")
        top = Dump(entries=4, slots=4, name_size=4, base=0xFFFFFF00)
        top.entries[3][0] = flag
        a_name(f"find at the top of memory, {kind}", top, PUMP + 3, f'"pump" {kind} 4 124')


def pointer_zero():
    """A fresh entry has type 0 and names nobody; a free one of type 1 that is else all zeros has an empty name."""
    rows = {"fresh": ([FRESH] * 3, "null 0"), "free of type 1": ([removed(0, b"")], '"" gone 0 64'),
            "free of type 1 behind fresh ones": ([FRESH, FRESH, removed(0, b"")], '"" gone 0 112')}
    for title, (entries, found) in rows.items():
        dump = holding([slot(ISR, 0), slot(ISR, 0)], *entries)
        a_name(f"pointer 0, {title}", dump, 0, found)
        a_name(f"pointer 0, {title}, another", dump, PUMP, "null 0")
        each(f"pointer 0, {title}", dump, **told(found, 2))


def times():
    each("time: 65500, 20 under 0xFFFF", stamped(65500, 20), ticks=[0, 56], us=[0, 56])
    each("time: equal stamps", stamped(77, 77, 77), ticks=[0, 0, 0])
    each("time: bits above the mask", stamped(0x1234FFDC, 0xABCD0014, 0x00000014), ticks=[0, 56, 56])
    each("time: bits above the mask, back", stamped(0xFFFF0005, 0x00000004), ticks=[0, 65535])
    each("time: wraps several times", stamped(0, 65535, 0, 65535, 40000, 30000, 30000),
         ticks=[0, 65535, 65536, 131071, 171072, 226608, 226608])
    each("time: mask 0x1", stamped(0, 1, 1, 0, 0x10, 7, mask=0x1), ticks=[0, 1, 1, 2, 2, 3])
    each("time: mask 0x7", stamped(7, 0, 15, 6, 6, 0xFFFFFFFF, mask=0x7), ticks=[0, 1, 8, 15, 15, 16])
    each("time: mask 0xffffffff", stamped(0xFFFFFFFF, 0, 0x80000000, 0, mask=0xFFFFFFFF),
         ticks=[0, 1, 2147483649, 4294967297])
    each("time: all ones back by one", stamped(5, 4, 3, 2, mask=0xFFFFFFFF),
         ticks=[0, 4294967295, 8589934590, 12884901885])
    third = Reading(rate=3, unit=0, serial=0)
    each("time: microseconds are not summed by gap", stamped(0, 1, 2, 3, 4), third,
         us=[0, 333333, 666666, 1000000, 1333333])
    each("time: oldest is not slot 0", holding([slot(stamp=s) for s in (30, 65500, 20)], current=1), ticks=[0, 56, 66])


def rates():
    """9007199254 and 9007199255 ticks: the last microseconds that are printed bare at rate 1, and the first not."""
    limit = stamped(0, 4294967295, 4294967294, 417264662, 417264663, mask=0xFFFFFFFF)
    ticks = [0, 4294967295, 8589934590, 9007199254, 9007199255]
    each("rate 1", limit, Reading(1, 0, 0), ticks=ticks,
         us=[0, 4294967295000000, 8589934590000000, 9007199254000000, "9007199255000000"])
    each("rate 2", limit, Reading(2, 0, 0),
         us=[0, 2147483647500000, 4294967295000000, 4503599627000000, 4503599627500000])
    each("rate 4294967295", limit, Reading(4294967295, 0, 0), ticks=ticks, us=[0, 1000000, 2000000, 2097152, 2097152])
    each("rate 7", stamped(0, 1, 8, 9), Reading(7, 0, 0), us=[0, 142857, 1142857, 1285714])
    each("rate 1000001", stamped(0, 1, 2), Reading(1000001, 0, 0), us=[0, 0, 1])
    each("rate 999999", stamped(0, 1, 2), Reading(999999, 0, 0), us=[0, 1, 2])
    far = stamped(*[(-i) % 2**32 for i in range(12)], mask=0xFFFFFFFF)
    steps = [4294967295 * i for i in range(12)]
    quoted = ["12884901885000000", *[str(1000000 * ticks) for ticks in steps[4:]]]
    said = dict(ticks=steps, us=[0, 4294967295000000, 8589934590000000, *quoted])
    a_listing("rate 1, far", far, said, Reading(1, 0, 0))
    a_line("rate 1, far, line 11", far, 11, dict(ticks=[47244640245], us=["47244640245000000"]), Reading(1, 0, 0))
    an_event("rate 1, far, event 11", far, 11, dict(ticks=[47244640245]))


def nearest_microseconds():
    """No rate turns ticks that a dump can have into 2^53 - 1, 2^53 or 2^53 + 1 microseconds; these come nearest."""
    widest = 4294967295
    most = 2045 * widest
    bare, quoted = [], []
    for rate in range(1, 1001):
        first = -(-LIMIT * rate // 1000000)
        last = min(first - 1, most)
        bare.append((last * 1000000 // rate, rate, last))
        if first <= most:
            quoted.append((first * 1000000 // rate, rate, first))
    assert max(bare)[0] == 9007199254740990 and min(quoted) == (9007199254740994, 583, 5251197165514)
    assert (9007199254740990, 444, 3999196469105) in bare and most * 1000000 // 1000 < 9007199254740990
    for rate, ticks, us in ((444, 3999196469105, 9007199254740990), (583, 5251197165514, "9007199254740994")):
        steps, rest = divmod(ticks, widest)
        dump = stamped(*[-i % 2**32 for i in range(steps + 1)], (rest - steps) % 2**32, mask=0xFFFFFFFF)
        a_line(f"microseconds: {us} at rate {rate}", dump, steps + 1, dict(ticks=[ticks], us=[us]), Reading(rate, 0, 0))


def keys():
    two = stamped(1, 2)
    one = stamped(1)
    each("key: unit 0", two, Reading(1, 0, 0), key=[0, 1])
    each("key: unit 1", two, Reading(1, 1, 5), key=[1099511627781, 1099511627782])
    each("key: unit 8191", two, Reading(1, 8191, 0), key=[9006099743113216, 9006099743113217])
    each("key: 2^53 - 2 and 2^53 - 1, unit 8191", two, Reading(1, 8191, TWO_40 - 2), key=[9007199254740990, 9007199254740991])
    each("key: 2^53 and 2^53 + 1, unit 8192", two, Reading(1, 8192, 0), key=["9007199254740992", "9007199254740993"])
    each("key: unit 16777215", two, Reading(1, 16777215, 0), key=["18446742974197923840", "18446742974197923841"])
    each("key: unit 16777215, last serial", one, Reading(1, 16777215, TWO_40 - 1), key=["18446744073709551615"])
    each("key: serial 1099511627775, one event", one, Reading(1, 0, 1099511627775), key=[1099511627775])
    both("key: serial 1099511627775, two events", two, Reading(1, 0, 1099511627775), "15 0 0")
    both("key: serial 1099511627776, one event", one, Reading(1, 0, 1099511627776), "15 0 0")
    a_listing("key: serial 1099511627776, no event", Dump(), "0 0", Reading(1, 0, 1099511627776))
    a_line("key: serial 1099511627776, no event, line", Dump(), 0, "25 0 0", Reading(1, 0, 1099511627776))
    for title, dump in (("no event", Dump()), ("one event", one), ("two events", two)):
        both(f"key: serial 1099511627777, {title}", dump, Reading(1, 0, 1099511627777), "15 0 0")
        both(f"key: serial 18446744073709551615, {title}", dump, Reading(1, 0, LAST), "15 0 0")
        both(f"key: serial 18446744073709551614, {title}", dump, Reading(1, 0, LAST - 1), "15 0 0")
        both(f"key: unit 16777216, {title}", dump, Reading(1, 16777216, 0), "15 0 0")
        both(f"key: unit 4294967295, {title}", dump, Reading(1, 4294967295, 0), "15 0 0")


def refusals():
    for refusal, title, dump in broken():
        title = f"refusal {refusal}, {title}"
        an_event(f"{title}, event", dump, 0, refusal)
        both(title, dump, PLAIN, f"{refusal} 0")
        if int(refusal.split()[0]) in OF_THE_HEADER | {11}:
            a_name(f"{title}, name", dump, PUMP, f"{refusal} 0")
    odd = holding([slot()], removed(PUMP, b"old"), entry(VALVE, b"odd", kind=15))
    a_name("refusal 11 where a gone one has the pointer, name", odd, PUMP, "11 1 0")
    an_event("refusal 11 where a gone one has the pointer, event", odd, 0, "11 1")
    both("refusal 11 where a gone one has the pointer", odd, PLAIN, "11 1 0")
    both("refusal 14", stamped(1, 2), Reading(0, 0, 0), "14 0 0")
    both("refusal 14, empty ring", Dump(), Reading(0, 0, 0), "14 0 0")


def orders():
    """Two rows broken at once: the one that the call asks first is given."""
    rateless, wide, both_bad = Reading(0, 0, 0), Reading(1, 1 << 24, 0), Reading(0, 1 << 24, LAST)
    ring = stamped(1, 2)
    both("14 before 15", ring, both_bad, "14 0 0")
    both("13 before 14", no_id(1), rateless, "13 1 0")
    both("12 before 14", Dump().use(1, 3).at(2), rateless, "12 0 0")
    both("11 before 14", bad_type(1), both_bad, "11 1 0")
    both("1 before 14", changed(Dump(), cut=47), both_bad, "1 0 0")
    a_listing("14 before 16, listing", ring, "14 0 0", rateless, of(0))
    a_listing("15 before 16, listing", ring, "15 0 0", wide, of(0))
    a_listing("13 before 16, listing", no_id(0), "13 0 0", PLAIN, of(0))
    for position in (2, LAST):
        an_event(f"11 before 25, event {position}", bad_type(1), position, "11 1")
        an_event(f"12 before 25, event {position}", Dump().use(1, 3).at(2), position, "12 0")
        an_event(f"13 before 25, event {position}", no_id(1), position, "13 1")
        a_line(f"13 before 25, line {position}", no_id(1), position, "13 1 0")
        a_line(f"14 before 25, line {position}", ring, position, "14 0 0", rateless, of(0))
        a_line(f"15 before 25, line {position}", ring, position, "15 0 0", wide, of(0))
        a_line(f"25 before 16, line {position}", ring, position, "25 0 0", PLAIN, of(0))


def rooms():
    ring = holding([slot(PUMP), slot(ISR, PUMP), slot(ALARM)], entry(PUMP, b"pump"))
    for room in (0, 1, 2, 50):
        a_listing(f"room {room}, listing", ring, "16 0 0", room=of(room))
        a_line(f"room {room}, line", ring, 1, "16 0 0", room=of(room))
    for title, room in (("exact", exact), ("some", some), ("2099", of(2099)), ("2100", of(2100)), ("9999", of(9999))):
        a_listing(f"room {title}, listing", ring, dict(name=["pump", "pump", None]), room=room)
    a_listing("room short, listing", ring, "16 0 0", room=short)
    for position in range(3):
        a_line(f"room short, line {position}", ring, position, "16 0 0", room=short)
        a_line(f"room exact, line {position}", ring, position, dict(key=[position]), room=exact)
        a_line(f"room 9999, line {position}", ring, position, dict(key=[position]), room=of(9999))
    length = len("".join(line(i, 0, 0, 5, PUMP, 2, 16, (1, 2, 3, 4), None, False) for i in range(3)))
    plain = stamped(100, 100, 100)
    for room in (length - 1, length, length + 1):
        said = "16 0 0" if room < length else dict(key=[0, 1, 2])
        a_listing(f"room {room} for {length}", plain, said, room=of(room))
    reading = Reading(rate=1, unit=16777215, serial=TWO_40 - 4)
    for title, pointer, flag, gone in (("isr", ISR, 0, False), ("thread", ISR - 1, 0, False), ("gone thread", ISR - 1, 1, True)):
        longest = holding([[pointer, ISR, ISR, -i % 2**32, *[ISR] * 4] for i in range(4)],
                          entry(pointer, b"\xff" * 64, flag), size=64, mask=0xFFFFFFFF)
        said = dict(name=["\xff" * 64] * 4, gone=[gone] * 4)
        for room in (exact, some, plenty):
            a_listing(f"longest lines, {title}, {room.__name__}", longest, said, reading, room)
            a_line(f"longest line, {title}, {room.__name__}", longest, 3, dict(key=["18446744073709551615"]), reading, room)
        a_listing(f"longest lines, {title}, short", longest, "16 0 0", reading, short)
        a_line(f"longest line, {title}, short", longest, 3, "16 0 0", reading, short)


def positions():
    ring = numbered(3, 3, 1)
    for position in (0, 1, 2):
        an_event(f"position {position} of 3, event", ring, position, dict(id=[[2, 3, 1][position]]))
        a_line(f"position {position} of 3, line", ring, position, dict(id=[[2, 3, 1][position]]))
    for position in (3, 4, 1 << 32, (1 << 32) + 1, 1 << 63, LAST):
        an_event(f"position {position} of 3, event", ring, position, "25 0")
        a_line(f"position {position} of 3, line", ring, position, "25 0 0")


# Seeded cases.

POINTERS = (PUMP, VALVE, ALARM, INIT, ISR, 1)


def seeded_dump(chance):
    """A dump with names, pointers that repeat, any stamps and words, and now and then some damage."""
    dump = Dump(chance.below(7), 1 + chance.below(chance.one(8, 8, 8, 8, 24)), 4 + 4 * chance.below(16),
                chance.one(0, 0x20000000, 0xFFFFFF00, 0xFFFFFFE0, chance.below(1 << 31)))
    current = chance.below(len(dump.slots))
    dump.at(current).mask = (1 << 1 + chance.below(32)) - 1
    for i in range(chance.one(current, len(dump.slots), len(dump.slots))):
        dump.slots[i] = [chance.one(*POINTERS), chance.one(0, *POINTERS), 1 + chance.below(2000),
                         *(chance.bits(32) for _ in range(5))]
    for i in range(len(dump.entries)):
        called = chance.bytes(chance.below(dump.name_size + 1)) + chance.one(b"", b"\0x")
        dump.entries[i] = [chance.one(0, 1, 1, 1, 2, 255), chance.one(1, 1, 1, 2, 28), chance.bytes(2),
                           chance.one(0, *POINTERS), chance.bits(32), chance.bits(32), called[:dump.name_size]]
    dump.reserved = [chance.bits(16), *(chance.bits(32) for _ in range(3))]
    dump.tail = chance.bytes(chance.below(3) * 11)
    for _ in range(chance.one(0, 0, 0, 0, 0, 0, 1, 2)):
        damage(dump, chance)
    return dump


def seeded_reading(chance, count):
    """A reading that is mostly accepted with so many events."""
    rate = chance.one(1, 1, 3, 1000000, 3000000, 4294967295, chance.below(2), *(1 + chance.bits(31) for _ in range(5)))
    unit = chance.one(0, 8191, 8192, 16777215, *(chance.bits(24) for _ in range(6)), chance.bits(26))
    serial = chance.one(0, *(chance.bits(39) for _ in range(6)), *[TWO_40 - count] * 3, TWO_40 - count + 1,
                        chance.bits(64))
    return Reading(rate, unit, serial)


def seeded(index, chance, order):
    """A seeded case of any kind, by its dump as it is in one order."""
    dump = seeded_dump(chance)
    try:
        count = len(read_events(dump.bytes(order)))
    except Refused:
        count = 0
    reading = seeded_reading(chance, count)
    room = chance.one(some, some, some, exact, exact, exact, plenty, plenty, short, of(chance.below(400)))
    position = chance.below(max(count, 1) + chance.one(0, 0, 0, 2))
    return Case(f"seeded {index}", chance.one("e", "n", "l", "l", "a", "a"), dump, reading, position,
                chance.one(0, *POINTERS), room, None)


# The replies.

def event_reply(raw, case, room):
    return shown_event(one_event(raw, case.position))


def name_reply(raw, case, room):
    return found_name(find_name(raw, case.pointer))


def line_reply(raw, case, room):
    text = one_line(raw, case.reading, case.position, room)
    read_back(text, *read_fields(raw, case.reading)[case.position])
    return written(text)


def listing_reply(raw, case, room):
    text = listing(raw, case.reading, room)
    lines, said = text.splitlines(keepends=True), read_fields(raw, case.reading)
    assert len(lines) == len(said)
    for one, values in zip(lines, said):
        read_back(one, *values)
    return written(text)


REPLIES = {"e": event_reply, "n": name_reply, "l": line_reply, "a": listing_reply}


def reply(raw, case, room):
    """What the program must print after the case's name."""
    try:
        return REPLIES[case.kind](raw, case, room)
    except Refused as refusal:
        return str(refusal) if case.kind == "e" else f"{refusal} 0"


def room_of(raw, case):
    """The output's size: by the text, where there is one."""
    try:
        said = read_fields(raw, case.reading)
        texts = [line(*values) for values in said]
        texts = texts if case.kind == "a" else [texts[case.position]]
    except (Refused, IndexError):
        texts = ["." * 300]
    return case.room(sum(map(len, texts)), len(texts))


def parts(case, given):
    """The events of a reply, each by the names of its fields."""
    if case.kind != "e":
        return [json.loads(text) for text in given.split("\n")[1:]]
    *words, ticks, by, name = given.split(" ", 10)
    ptr, field, ident, _, *info = map(int, words)
    text, kind = (name, "") if name == "null" else name.rsplit(" ", 1)
    return [dict(ptr=ptr, field=field, id=ident, info=info, ticks=int(ticks), by=by, name=json.loads(text), gone=kind == "gone")]


def agrees(case, given):
    """Whether a reply is what the case says by hand."""
    if case.by_hand is None or isinstance(case.by_hand, str):
        return case.by_hand in (None, given)
    events = parts(case, given)
    return all([event[field] for event in events] == values for field, values in case.by_hand.items())


def given_to(case, room):
    """What is given to the case's call."""
    return {"e": (case.position,), "n": (case.pointer,), "l": (case.reading, case.position, room),
            "a": (case.reading, room)}[case.kind]


def add(case, order, title, cases):
    """Puts a case into the file, with what it must print."""
    raw = case.dump.bytes(order)
    room = room_of(raw, case)
    given = reply(raw, case, room)
    if not agrees(case, given):
        sys.exit(f"{title}: by hand {case.by_hand}, by rule {given}")
    cases.add(title, raw, [(case.kind, given_to(case, room), given)])


GROUPS = (whole_case, rings, contexts, neighbours, registries, names, finding, pointer_zero, times, rates, nearest_microseconds, keys,
          refusals, orders, rooms, positions)
cases = Cases()
for group in GROUPS:
    group()
for order, word in WORDS.items():
    for case in CASES:
        add(case, order, f"{case.name}, {word}", cases)

# The large dumps in one order only.
CASES.clear()
full()
for case in CASES:
    add(case, "<", case.name, cases)

chance = Chance(2027)
for index in range(300):
    order = chance.one("<", ">")
    case = seeded(index, chance, order)
    add(case, order, case.name, cases)

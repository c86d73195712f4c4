"""The questions that the program `cases` puts to the reader with a name file, the records that it writes into one, and what it must print.

The answers come from reader.py and names.py, which are written from the documents and not from our code. A
named case also says by hand what each call must answer, whole or in part, and of writing all bytes that the
name file must then have; the two must agree, or nothing is written. The seeded cases have the two modules'
word alone. Every line is read by Python's JSON parser, and must give the values that it was made of.
"""
import json
import struct
import sys
from collections import namedtuple

from dumps import ALARM, INIT, ISR, OF_THE_HEADER, PUMP, VALVE, WORDS, Dump, Refused, broken, changed, entry, no_id, slot
from form import MOST_ROOM, Cases, digest, found_name, shown_event, written
from made import Chance
from names import write_record
from reader import Reading, find_name, listing, one_event, one_line, read_events, read_fields
from reader_cases import FRESH, LAST, POINTERS, TWO_40, beside, exact, holding, of, removed, seeded_dump, seeded_reading, short, some
from texts import DOCUMENT, DOCUMENT_WITH_NAMES, read_back

PLAIN = Reading(rate=1000000, unit=0, serial=0)
TWO_32, TWO_64 = 1 << 32, 1 << 64

# The longest name that a record holds.
LONGEST = 65528

# A step is a call and its answer by hand, or none where the case is seeded; `ends` is the name file after all steps, if given.
Case = namedtuple("Case", "name dump names steps ends")
CASES = []


def case(name, dump, names, *steps, ends=None):
    """A case in both orders; in one where there is no dump."""
    CASES.append(Case(name, dump, names, steps, ends))


# The calls.

def event_at(position):
    return "E", (position,)


def finding(pointer):
    return "N", (pointer,)


def line_at(position, reading=PLAIN, room=some):
    return "L", (reading, position, room)


def listed(reading=PLAIN, room=some):
    return "A", (reading, room)


def without(call):
    """The same call without the name file."""
    letter, given = call
    return letter.lower(), given


def writing_event(ident, offset, called):
    return "r", (0, ident, offset, called)


def writing_thread(pointer, offset, called):
    return "r", (1, pointer, offset, called)


# What name files hold.

def record(kind, content):
    return struct.pack("<HH", len(content), kind) + content


def of_event(ident, called):
    return record(1, struct.pack("<I", ident) + called)


def of_thread(pointer, called):
    return record(2, struct.pack("<I", pointer) + called)


# 13 bytes each.
START, VALVES = of_event(5, b"start"), of_thread(VALVE, b"valve")
BOTH = START + VALVES
assert BOTH.hex() == "09000100" "05000000" "7374617274" "09000200" "00110020" "76616c7665"

# One event with id 5 by the thread VALVE, of which the dump has no name.
RING = holding([slot(VALVE)], entry(PUMP, b"pump"))


# What is asked of one ring.

def four(pointer=PUMP, room=some):
    """A call of each kind."""
    return event_at(0), finding(pointer), line_at(0, room=room), listed(room=room)


def refuses(title, names, refusal, dump=RING):
    """Every call refuses, also where the dump has the name that is sought; those without the file take no notice of it."""
    asked = [(call, refusal) for call in four()]
    case(title, dump, names, *asked, (without(finding(PUMP)), '"pump" live 4 64'))


def line_of_ring(own, called):
    """The line of RING's event, by the texts of its own name and the thread's."""
    return ('{"key":0,"ticks":0,"us":0,"id":5,"event":%s,"ptr":536875264,"by":"thread","name":%s,"gone":false,'
            '"field":16,"info":[1,2,3,4]}\n' % (own, called))


def finds(title, names, own, found, dump=RING):
    """What RING's event is called: by the text of its own name, and by the reply to finding the thread's."""
    called, kind = ("null", "null") if found == "null 0" else (found.rsplit(" ", 3)[0], found.rsplit(" ", 2)[0])
    event = f"536875264 16 5 100 1 2 3 4 0 thread {kind} {own if own == 'null' else own + ' filed'}"
    text = line_of_ring(own, called)
    case(title, dump, names, (event_at(0), event), (finding(VALVE), found), (line_at(0), text), (listed(room=exact), text))


def says(**by_hand):
    """The steps that list all events and ask for each, with values that they must have; only an event asked for tells its name's kind."""
    count = len(next(iter(by_hand.values())))
    here = lambda i: {field: [values[i]] for field, values in by_hand.items()}
    told = lambda values: {field: value for field, value in values.items() if field != "kind"}
    steps = [(listed(), told(by_hand))]
    for i in range(count):
        steps += [(line_at(i), told(here(i))), (event_at(i), here(i))]
    return steps


# The cases.

def whole_case():
    slots = [slot(0x20002000, 16, 6, 20, (7, 0, 0, 0)), slot(PUMP, 16, 5, 65500), slot(ISR, PUMP, 1025, 20, (0, 0, 0, 0))]
    dump, gone = (holding(slots, entry(PUMP, b"pump", flag), current=1) for flag in (0, 1))
    reading = Reading(rate=3000000, unit=8192, serial=0)
    lines = DOCUMENT_WITH_NAMES.splitlines(keepends=True)
    names = START + of_thread(0x20002000, b"valve")
    case("whole case", dump, names, (listed(reading), DOCUMENT_WITH_NAMES), (listed(reading, exact), DOCUMENT_WITH_NAMES),
         (listed(reading, short), "16 0"), *[(line_at(i, reading), lines[i]) for i in range(3)],
         *[(line_at(i, reading, exact), lines[i]) for i in range(3)], *[(line_at(i, reading, short), "16 0") for i in range(3)],
         (line_at(3, reading), "25 0"), (event_at(3), "25 0"),
         (event_at(0), '536875008 16 5 65500 1 2 3 4 0 thread "pump" live "start" filed'),
         (event_at(1), '4294967295 536875008 1025 20 0 0 0 0 56 isr "pump" live null'),
         (event_at(2), '536879104 16 6 20 7 0 0 0 56 thread "valve" filed null'),
         (finding(PUMP), '"pump" live 4 64'), (finding(0x20002000), '"valve" filed 5 21'), (finding(ALARM), "null 0"))
    case("whole case, gone", gone, names, (listed(reading), DOCUMENT_WITH_NAMES.replace('"pump","gone":false', '"pump","gone":true')),
         (event_at(0), '536875008 16 5 65500 1 2 3 4 0 thread "pump" gone "start" filed'), (finding(PUMP), '"pump" gone 4 64'))
    case("whole case, next to the calls without the file", dump, names, (without(listed(reading)), DOCUMENT),
         (listed(reading), DOCUMENT_WITH_NAMES), (without(listed(reading, exact)), DOCUMENT),
         (without(line_at(2, reading)), DOCUMENT.splitlines(keepends=True)[2]), (line_at(2, reading), lines[2]),
         (without(event_at(2)), "536879104 16 6 20 7 0 0 0 56 thread null"),
         (event_at(2), '536879104 16 6 20 7 0 0 0 56 thread "valve" filed null'),
         (without(finding(0x20002000)), "null 0"), (finding(0x20002000), '"valve" filed 5 21'),
         (without(finding(PUMP)), '"pump" live 4 64'))
    empty = DOCUMENT.replace('"id":5,', '"id":5,"event":null,').replace('"id":1025,', '"id":1025,"event":null,')
    empty = empty.replace('"id":6,', '"id":6,"event":null,')
    case("whole case, a file of no bytes", dump, b"", (listed(reading), empty), (without(listed(reading)), DOCUMENT),
         (event_at(0), '536875008 16 5 65500 1 2 3 4 0 thread "pump" live null'),
         (event_at(2), "536879104 16 6 20 7 0 0 0 56 thread null null"), (finding(PUMP), '"pump" live 4 64'),
         (finding(0x20002000), "null 0"))
    case("whole case, next to a damaged file", dump, names[:-1], (listed(reading), "27 13"), (without(listed(reading)), DOCUMENT),
         (without(event_at(0)), '536875008 16 5 65500 1 2 3 4 0 thread "pump" live'), (without(line_at(3, reading)), "25 0"),
         (without(line_at(0, reading)), DOCUMENT.splitlines(keepends=True)[0]), (without(finding(ALARM)), "null 0"))


def empty_rings():
    for title, names in (("no bytes", b""), ("names", BOTH)):
        case(f"empty ring, {title}", Dump(), names, *[(listed(room=of(room)), "") for room in (0, 1, 300)],
             (line_at(0), "25 0"), (event_at(0), "25 0"))
    refuses("empty ring, a damaged file", BOTH[:-1], "27 13", changed(Dump(), entries=[entry(PUMP, b"pump"), FRESH, FRESH]))


def files():
    finds("no bytes", b"", "null", "null 0")
    finds("an event's record", START, '"start"', "null 0")
    finds("a thread's record", VALVES, "null", '"valve" filed 5 8')
    finds("an event's record, then a thread's", BOTH, '"start"', '"valve" filed 5 21')
    finds("a thread's record, then an event's", VALVES + START, '"start"', '"valve" filed 5 8')
    others = of_event(6, b"six") + of_thread(ALARM, b"alarm") + of_event(4, b"four") + of_thread(VALVE + 1, b"next")
    finds("records of others", others, "null", "null 0")
    finds("behind records of others", others + BOTH, '"start"', '"valve" filed 5 69')
    finds("before records of others", BOTH + others, '"start"', '"valve" filed 5 21')
    many = b"".join(of_event(6 + i, b"%d" % i) + of_thread(ALARM + i, b"%d" % i) for i in range(100))
    finds("behind many", many + BOTH, '"start"', f'"valve" filed 5 {8 * 200 + 2 * 190 + 21}')
    # Each differs in one byte of its number from the one that is sought.
    near = b"".join(of_event(5 ^ 1 << 8 * i, b"no") + of_thread(VALVE ^ 1 << 8 * i, b"no") for i in range(4))
    finds("numbers that differ in a byte", near, "null", "null 0")
    turned = of_event(0x05000000, b"no") + of_thread(0x00110020, b"no")
    finds("numbers in the other byte order", turned, "null", "null 0")


def other_kinds():
    """Stepped over, whatever their length and what they hold."""
    for kind in (0, 3, 4, 255, 0x0100, 0x0101, 0x0102, 0x0200, 0x0201, 0x8001, 0x8002, 0xFFFF):
        for length in (0, 1, 3, 4, 5, 13):
            # Its first 13 bytes would be a record if it were not stepped over.
            other = record(kind, of_event(5, b"wrong")[:length])
            finds(f"kind {kind}, length {length}", other, "null", "null 0")
            finds(f"kind {kind}, length {length}, before others", other + BOTH, '"start"', f'"valve" filed 5 {25 + length}')
        finds(f"kind {kind}, between and at the end", START + record(kind, b"\1\0") + VALVES + record(kind, b""),
              '"start"', '"valve" filed 5 27')
        finds(f"kind {kind}, of an id and a pointer", record(kind, START[4:]) + record(kind, VALVES[4:]), "null", "null 0")
    finds("other kinds alone", bytes(400), "null", "null 0")
    inner = record(9, START[:-1] + record(1, b"")) + BOTH
    finds("a damaged record within another kind", inner, '"start"', '"valve" filed 5 41')


def texts():
    """Names to the record's end, zeros and all; their text is escaped."""
    rows = [
        ("no bytes", b"", '""', 0), ("a zero", b"\0", r'"\u0000"', 1), ("zeros", bytes(3), r'"\u0000\u0000\u0000"', 3),
        ("a zero first", b"\0pump", r'"\u0000pump"', 5), ("a zero within", b"pu\0mp", r'"pu\u0000mp"', 5),
        ("a zero last", b"pump\0", r'"pump\u0000"', 5), ("one byte", b"z", '"z"', 1),
        ("document 01's escapes", b'A"\n', r'"A\"\u000a"', 3), ("backslashes", b"\\\\\\", r'"\\\\\\"', 3),
        ("edges of the plain bytes", b"\x1f\x20\x7e\x7f", r'"\u001f ~\u007f"', 4),
        ("high bytes", b"\x80\xff\xc3\xa9", r'"\u0080\u00ff\u00c3\u00a9"', 4), ("null by name", b"null", '"null"', 4),
        ("as a record", START, r'"\u0009\u0000\u0001\u0000\u0005\u0000\u0000\u0000start"', 13),
        ("64 bytes", b"z" * 64, '"' + "z" * 64 + '"', 64), ("65 bytes", b"z" * 65, '"' + "z" * 65 + '"', 65),
        ("300 bytes of ff", b"\xff" * 300, '"' + r"\u00ff" * 300 + '"', 300),
    ]
    for title, called, text, length in rows:
        finds(f"name: {title}", of_event(5, called) + of_thread(VALVE, called), text, f"{text} filed {length} {16 + length}")
        finds(f"name: {title}, of the event alone", of_event(5, called), text, "null 0")
        finds(f"name: {title}, of the thread alone", of_thread(VALVE, called), "null", f"{text} filed {length} 8")
    every = bytes(range(256))
    said = every.decode("latin-1")
    case("name: every byte", RING, of_event(5, every) + of_thread(VALVE, every), *says(name=[said], event=[said], gone=[False], kind=["filed"]))
    for first in range(0, 256, 16):
        row = [bytes([b]) for b in range(first, first + 16)]
        names = b"".join(of_event(b[0] + 1, b) + of_thread(VALVE + b[0], b) for b in row)
        ring = holding([slot(VALVE + b[0], ident=b[0] + 1) for b in row])
        letters = [b.decode("latin-1") for b in row]
        case(f"name: bytes from {first}, one at a time", ring, names, (listed(), dict(name=letters, event=letters)))


def firsts():
    """The first record for an id or a pointer counts; the kinds are kept apart."""
    event, thread = of_event(5, b"late"), of_thread(VALVE, b"late")
    finds("two for an id and for a pointer", BOTH + event + thread, '"start"', '"valve" filed 5 21')
    finds("two side by side", START + event + VALVES + thread, '"start"', '"valve" filed 5 33')
    finds("the same twice", BOTH + BOTH, '"start"', '"valve" filed 5 21')
    finds("three", BOTH + 2 * (thread + event), '"start"', '"valve" filed 5 21')
    finds("the first without bytes", of_event(5, b"") + of_thread(VALVE, b"") + BOTH, '""', '"" filed 0 16')
    finds("a name of no bytes behind", BOTH + of_event(5, b"") + of_thread(VALVE, b""), '"start"', '"valve" filed 5 21')
    finds("the first behind another kind for the same", record(3, START[4:]) + record(3, VALVES[4:]) + BOTH, '"start"', '"valve" filed 5 47')
    finds("an event's record for the pointer", of_event(VALVE, b"no"), "null", "null 0")
    finds("a thread's record for the id", of_thread(5, b"no"), "null", "null 0")
    finds("each number in the other kind, before", of_event(VALVE, b"no") + of_thread(5, b"no") + BOTH, '"start"', '"valve" filed 5 41')
    same = holding([slot(5, ident=5), slot(ISR, 5, ident=5), slot(INIT, 5, ident=5)])
    for title, names, own, called in (("both", of_event(5, b"event") + of_thread(5, b"thread"), "event", "thread"),
                                      ("both, the thread first", of_thread(5, b"thread") + of_event(5, b"event"), "event", "thread"),
                                      ("the event alone", of_event(5, b"event"), "event", None), ("the thread alone", of_thread(5, b"thread"), None, "thread")):
        case(f"an id and a pointer of one number, {title}", same, names, *says(event=[own] * 3, name=[called, called, None]))
    for ident in (1, 1024, 1025, 0xFFFFFFFF):
        names = of_event(ident, b"own") + of_event(ident - 1, b"before") + of_event((ident + 1) % TWO_32, b"behind")
        case(f"event id {ident}", holding([slot(VALVE, ident=ident)]), names, *says(id=[ident], event=["own"], name=[None]))


def cuts():
    """A record cut in each of its fields: 27 with its offset."""
    for kind, title in ((1, "event"), (2, "thread"), (9, "another kind")):
        whole = record(kind, struct.pack("<I", 5) + b"start")
        for length in range(1, 13):
            refuses(f"{title}, {length} bytes of 13", whole[:length], "27 0")
            refuses(f"{title}, {length} bytes of 13, behind another", VALVES + whole[:length], "27 13")
        refuses(f"{title}, a length of one more", b"\x0a" + whole[1:], "27 0")
        refuses(f"{title}, a length of 256 more", whole[:1] + b"\1" + whole[2:], "27 0")
        refuses(f"{title}, length 65,535", b"\xff\xff" + whole[2:], "27 0")
    for length in (1, 2, 3):
        for byte in (0, 1, 2, 4, 0xFF):
            refuses(f"{length} bytes of {byte:#x}", bytes([byte]) * length, "27 0")
        refuses(f"{length} zeros behind others", BOTH + bytes(length), "27 26")
    finds("ends with the file", BOTH, '"start"', '"valve" filed 5 21')
    refuses("ends a byte behind the file", BOTH[:-1], "27 13")
    refuses("a byte behind the last record", BOTH + b"\0", "27 26")
    finds("four zeros behind the last record", BOTH + bytes(4), '"start"', '"valve" filed 5 21')


def lengths():
    """Both sides of 4 for an event and a thread."""
    for kind, title in ((1, "event"), (2, "thread")):
        for length in range(4):
            content = b"\5\0\0\0"[:length]
            refuses(f"{title}, length {length}", record(kind, content), "27 0")
            refuses(f"{title}, length {length}, behind others", BOTH + record(kind, content), "27 26")
            refuses(f"{title}, length {length}, before others", record(kind, content) + BOTH, "27 0")
            refuses(f"{title}, length {length}, between zeros", bytes(8) + record(kind, content) + bytes(8), "27 8")
            if length:
                refuses(f"{title}, length {length}, runs past too", record(kind, content)[:-1], "27 0")
    finds("length 4 of both", of_event(5, b"") + of_thread(VALVE, b""), '""', '"" filed 0 16')
    for length in range(5):
        finds(f"kind 3, length {length}, is no fault", record(3, bytes(length)) + BOTH, '"start"', f'"valve" filed 5 {25 + length}')


def lowest():
    """Of several damaged records the one with the lowest offset."""
    tiny, cut = record(1, b"abc"), START[:-1]
    refuses("one behind three", BOTH + record(3, b"x") + tiny, "27 31")
    refuses("two that are too short", START + tiny + VALVES + record(2, b""), "27 13")
    refuses("too short, then past the file", START + tiny + VALVES + cut, "27 13")
    refuses("too short, then a byte", tiny + b"\0", "27 0")
    refuses("too short at once, then past the file", record(2, b"ab") + cut, "27 0")
    refuses("another kind past the file, what is in it too short", START + b"\x09\0\3\0" + tiny, "27 13")
    refuses("another kind of length 0, then too short", record(0, b"") + tiny, "27 4")
    refuses("sound ones, the last too short", BOTH * 9 + tiny, "27 234")
    refuses("sound ones, the last past the file", BOTH * 9 + cut, "27 234")


def sizes():
    """Both sides of 65,536 bytes."""
    most = record(9, b"\xee" * 65532)
    finds("65,536 bytes, one record of another kind", most, "null", "null 0")
    finds("65,536 bytes, zeros", bytes(65536), "null", "null 0")
    front = BOTH + record(9, bytes(65506))
    finds("65,536 bytes, names before", front, '"start"', '"valve" filed 5 21')
    finds("65,536 bytes, names behind", record(9, bytes(65506)) + BOTH, '"start"', '"valve" filed 5 65531')
    refuses("65,537 bytes, a byte behind a record", most + b"\xee", "2 0")
    refuses("65,537 bytes, zeros", bytes(65537), "2 0")
    refuses("65,537 bytes, damaged too", record(1, b"") + bytes(65533), "2 0")
    refuses("65,537 bytes, a record to their end", BOTH + record(9, bytes(65507)), "2 0")
    refuses("65,537 bytes of ff", b"\xff" * 65537, "2 0")
    refuses("65,536 bytes of ff", b"\xff" * 65536, "27 0")
    refuses("65,536 bytes, damaged at once", record(1, b"") + bytes(65532), "27 0")
    for length in (1, 2, 3):
        refuses(f"65,536 bytes, {length} too many", record(9, bytes(65532 - length)) + bytes(length), f"27 {65536 - length}")
    refuses("65,536 bytes, an event's record of length 0 behind all", record(9, bytes(65528)) + record(1, b""), "27 65532")
    refuses("65,535 zeros", bytes(65535), "27 65532")
    refuses("65,536 bytes, a record of one byte more", b"\xfd" + most[1:], "27 0")
    for kind, title in ((1, "event"), (2, "thread")):
        refuses(f"65,536 bytes, {title}, a record of one byte more", struct.pack("<HHI", 65533, kind, 5) + bytes(LONGEST), "27 0")


def sources():
    """Where a name comes from: the dump if it is there, a removed thread's included, else the file."""
    live, gone = entry(VALVE, b"live"), removed(VALVE, b"gone")
    names = of_thread(VALVE, b"filed") + of_event(5, b"own")
    rows = {
        "live": ([live], b"", "live", "live", 64), "gone": ([gone], b"", "gone", "gone", 64),
        "in the file alone": ([], names, "filed", "filed", 8), "in the file, others in the dump": ([entry(PUMP, b"pump")], names, "filed", "filed", 8),
        "live and in the file": ([live], names, "live", "live", 64), "gone and in the file": ([gone], names, "gone", "gone", 64),
        "gone, live and in the file": ([gone, live], names, "live", "live", 88),
        "empty, live and in the file": ([entry(VALVE, b"")], names, "", "live", 64),
        "empty, gone and in the file": ([removed(VALVE, b"")], names, "", "gone", 64),
        "a queue, and in the file": ([entry(VALVE, b"queue", kind=2)], names, "filed", "filed", 8),
        "a removed queue, and in the file": ([removed(VALVE, b"queue", 2)], names, "filed", "filed", 8),
        "in none": ([entry(PUMP, b"pump")], of_thread(PUMP, b"x"), None, "", 0),
        "in none, no bytes": ([], b"", None, "", 0),
    }
    for title, (entries, held, called, kind, place) in rows.items():
        own = "own" if held == names else None
        ring = holding([slot(VALVE, ALARM), slot(ISR, VALVE), slot(INIT, VALVE)], *entries)
        found = "null 0" if called is None else f'"{called}" {kind} {len(called)} {place}'
        case(f"source: {title}", ring, held, (finding(VALVE), found),
             *says(by=["thread", "isr", "init"], name=[called, called, None], gone=[kind == "gone"] * 2 + [False],
                   kind=[kind, kind, ""], event=[own] * 3))
    mixed = holding([slot(PUMP), slot(VALVE), slot(ALARM), slot(ISR, VALVE), slot(ISR, ALARM), slot(ISR, PUMP), slot(1)],
                    entry(PUMP, b"pump"), removed(VALVE, b"valve"))
    held = b"".join(of_thread(pointer, b"filed") for pointer in (PUMP, VALVE, ALARM))
    case("source: each in one listing", mixed, held,
         *says(name=["pump", "valve", "filed", "valve", "filed", "pump", None], event=[None] * 7,
               gone=[False, True, False, True, False, False, False], kind=["live", "gone", "filed", "gone", "filed", "live", ""]))


def contexts():
    """init has no name and isr's is sought by the field; both have their events' names."""
    names = b"".join(of_thread(pointer, called) for pointer, called in ((INIT, b"init"), (ISR, b"isr"), (0, b"zero"), (PUMP, b"pump")))
    names += of_event(1, b"one") + of_event(3, b"three") + of_event(ISR, b"most")
    case("contexts", holding([slot(INIT, PUMP, 1), slot(ISR, PUMP, 2), slot(PUMP, INIT, 3), slot(INIT, INIT, 3), slot(ISR, VALVE, ISR)]),
         names, *says(by=["init", "isr", "thread", "init", "isr"], name=[None, "pump", "pump", None, None],
                      event=["one", None, "three", "three", "most"], kind=["", "filed", "filed", "", ""], gone=[False] * 5))
    case("isr by the field", holding([slot(ISR, field, 3) for field in (INIT, ISR, 0, PUMP, 1)]), names,
         *says(name=["init", "isr", "zero", "pump", None], event=["three"] * 5))
    case("init has no name", holding([slot(INIT, field, 1) for field in (INIT, ISR, 0, PUMP)]), names,
         *says(name=[None] * 4, event=["one"] * 4, gone=[False] * 4))
    case("close to init and isr", holding([slot(pointer, PUMP) for pointer in (0xF0F0F0F1, 0xF0F0F0EF, 0xFFFFFFFE, 0x0F0F0F0F, 1)]), names,
         *says(by=["thread"] * 5, name=[None] * 5))
    case("thread whose field is another's", holding([slot(VALVE, PUMP), slot(PUMP, VALVE)]), names, *says(name=[None, "pump"]))
    case("find 0, init and isr in the file", holding([slot()]), names, (finding(INIT), '"init" filed 4 8'), (finding(ISR), '"isr" filed 3 20'),
         (finding(0), '"zero" filed 4 31'), (finding(PUMP), '"pump" filed 4 43'), (finding(1), "null 0"), (finding(3), "null 0"))
    for flag, kind in ((0, "live"), (1, "gone")):
        held = holding([slot()], entry(0, b"0", flag), entry(ISR, b"1", flag), entry(INIT, b"2", flag))
        case(f"find 0, init and isr, {kind}", held, names, (finding(0), f'"0" {kind} 1 64'), (finding(ISR), f'"1" {kind} 1 88'),
             (finding(INIT), f'"2" {kind} 1 112'), (finding(PUMP), '"pump" filed 4 43'))
    case("find 0 where entries are fresh", holding([slot(ISR, 0)], FRESH, FRESH), names, (finding(0), '"zero" filed 4 31'), *says(name=["zero"]))
    case("find 0 where a free entry of type 1 is else zeros", holding([slot(ISR, 0)], removed(0, b"")), names, (finding(0), '"" gone 0 64'),
         *says(name=[""], gone=[True]))
    case("find in no file", holding([slot()]), b"", *[(finding(pointer), "null 0") for pointer in (0, INIT, ISR, PUMP)])
    for title, dump in (("12", Dump().use(1, 3).at(2)), ("13", no_id(1))):
        case(f"find where {title} is broken", dump, BOTH, (finding(VALVE), '"valve" filed 5 21'), (finding(PUMP), '"pump" live 4 64'),
             (finding(ALARM), "null 0"))


def neighbours():
    """Pointers that share a place in the lister's index, and the same numbers as event ids; some named by the dump, some by the file."""
    far = beside(VALVE)
    third = beside(far)
    names = b"".join(of_thread(pointer, called) for pointer, called in ((far, b"far"), (PUMP, b"no"), (ALARM, b"alarm"), (INIT, b"init"), (0, b"")))
    names += of_event(VALVE, b"own") + of_event(third, b"third")
    entries = [entry(PUMP, b"pump"), removed(VALVE, b"valve"), FRESH, entry(far, b"queue", kind=2)]
    rows = {
        "the dump's and the file's": ([slot(VALVE), slot(far)] * 3, ["valve", "far"] * 3),
        "the file's and none": ([slot(far), slot(third)] * 3, ["far", None] * 3),
        "all three": ([slot(third), slot(VALVE), slot(ISR, far), slot(far), slot(ISR, VALVE)] * 2, [None, "valve", "far", "far", "valve"] * 2),
        "alternating": ([slot(PUMP), slot(ALARM), slot(ISR, PUMP), slot(ISR, ALARM)] * 2, ["pump", "alarm"] * 4),
        "the same": ([slot(ALARM)] * 4, ["alarm"] * 4),
        "init, isr of the same, init": ([slot(INIT), slot(ISR, INIT), slot(INIT, INIT), slot(ISR, INIT)], [None, "init", None, "init"]),
        "isr of 0 first": ([slot(ISR, 0), slot(ISR, ALARM), slot(ISR, 0), slot(ISR, 1)], ["", "alarm", "", None]),
    }
    for title, (slots, called) in rows.items():
        gone = [name == "valve" for name in called]
        case(f"neighbours: {title}", holding(slots, *entries), names, (listed(), dict(name=called, gone=gone, event=[None] * len(called))),
             (without(listed()), dict(name=[name if name in ("pump", "valve") else None for name in called], gone=gone)))
        turned = holding(slots[2:] + slots[:2], *entries, current=len(slots) - 2)
        case(f"neighbours: {title}, gone round", turned, names, (listed(), dict(name=called, gone=gone)))
    idents = [VALVE, far, third, VALVE, 5, third, far]
    case("neighbours: event ids", holding([slot(VALVE, ident=ident) for ident in idents]), names,
         (listed(), dict(event=["own", None, "third", "own", None, "third", None], name=[None] * 7)))


def refusals():
    """The dump's row comes before the file's, whichever it is; finding a name asks no row behind 11."""
    for refusal, title, dump in broken():
        row = int(refusal.split()[0])
        for kind, names, its_own in (("sound", BOTH, None), ("damaged", BOTH[:-1], "27 13"), ("too long", bytes(65537), "2 0")):
            found = refusal if row in OF_THE_HEADER | {11} else its_own or '"valve" filed 5 21'
            case(f"refusal {refusal}, {title}, {kind} file", dump, names, (event_at(0), refusal), (event_at(LAST), refusal),
                 (finding(VALVE), found), (line_at(0), refusal), (line_at(LAST, Reading(0, 1 << 24, 0), of(0)), refusal),
                 (listed(), refusal), (listed(Reading(0, 1 << 24, 0), of(0)), refusal))
    long = changed(Dump(), cut=65537)
    for kind, names in (("sound", BOTH), ("damaged", BOTH[:-1]), ("too long", bytes(65537))):
        case(f"refusal 2 0, 65,537 bytes, {kind} file", long, names, *[(call, "2 0") for call in four()])


def orders():
    """Two rows broken at once: the one that the call asks first is given."""
    ring = holding([slot(VALVE), slot(VALVE)], entry(PUMP, b"pump"))
    rateless, wide, both_bad, late = Reading(0, 0, 0), Reading(1, 1 << 24, 0), Reading(0, 1 << 24, LAST), Reading(1, 0, TWO_40 - 1)
    for title, names, refusal in (("27", START[:-1], "27 0"), ("27 behind others", BOTH + b"\2", "27 26"), ("2", bytes(65537), "2 0"),
                                  ("2 and damaged", b"\xff" * 65537, "2 0")):
        first = [(call(reading, room), said) for reading, said in ((rateless, "14 0"), (wide, "15 0"), (both_bad, "14 0"), (late, "15 0"))
                 for room in (some, of(0)) for call in (listed, lambda *given: line_at(0, *given), lambda *given: line_at(LAST, *given))]
        case(f"14 and 15 before {title}", ring, names, *first)
        case(f"{title} before 25 and 16", ring, names, *[(event_at(position), refusal) for position in (0, 1, 2, LAST)],
             *[(line_at(position, room=of(room)), refusal) for position in (0, 2, LAST) for room in (0, 10000)],
             *[(listed(room=of(room)), refusal) for room in (0, 10000)])
        case(f"{title}, an empty ring", Dump(), names, *[(call, refusal) for call in four(room=of(0))])
    case("14, 15 and a sound file", ring, BOTH, (listed(rateless), "14 0"), (line_at(0, wide), "15 0"), (line_at(0, late), "15 0"))
    case("25 and 16 with a sound file", ring, BOTH, *[(event_at(position), "25 0") for position in (2, 3, TWO_32, LAST)],
         *[(line_at(position, room=of(room)), "25 0") for position in (2, TWO_32, LAST) for room in (0, 10000)],
         *[(line_at(1, room=of(room)), "16 0") for room in (0, 1, 50)], *[(listed(room=of(room)), "16 0") for room in (0, 1, 200)])


def rooms():
    """Just enough room and a byte less, for names of some length."""
    reading = Reading(rate=1, unit=16777215, serial=TWO_40 - 3)
    for title, own, called in (("plain", b"a" * 300, b"b" * 200), ("escaped", b"\xff" * 200, b"\0" * 300), ("the event's alone", b"\\" * 250, None),
                               ("the thread's alone", None, b'"' * 250), ("empty", b"", b""), ("none", None, None)):
        names = (b"" if own is None else of_event(5, own)) + (b"" if called is None else of_thread(VALVE, called))
        ring = holding([slot(VALVE), slot(ISR, VALVE), slot(INIT, VALVE)])
        said = lambda name: None if name is None else name.decode("latin-1")
        values = dict(event=[said(own)] * 3, name=[said(called)] * 2 + [None])
        case(f"rooms, {title}", ring, names, (listed(reading, exact), values), (listed(reading, short), "16 0"), (listed(reading), values),
             *[(line_at(i, reading, exact), dict(event=[said(own)], name=values["name"][i:i + 1])) for i in range(3)],
             *[(line_at(i, reading, short), "16 0") for i in range(3)])
    text = line_of_ring('"start"', '"valve"')
    for room, answer in ((len(text) - 1, "16 0"), (len(text), text), (len(text) + 1, text)):
        case(f"room {room} for {len(text)}", RING, BOTH, (line_at(0, room=of(room)), answer), (listed(room=of(room)), answer))
    bare = line_of_ring("null", "null")
    for room, answer in ((len(bare) - 1, "16 0"), (len(bare), bare)):
        case(f"room {room} for {len(bare)}, no bytes", RING, b"", (line_at(0, room=of(room)), answer), (listed(room=of(room)), answer))


def longest():
    """Names of 65,528 bytes, in one order only: of plain bytes, and of such as take six in the text."""
    plain, escaped = b"z" * LONGEST, b"\xff" * LONGEST
    text, wide = '"' + "z" * LONGEST + '"', '"' + r"\u00ff" * LONGEST + '"'
    event = "536875264 16 5 100 1 2 3 4 0 thread"
    case("longest name of an event", RING, of_event(5, plain), (event_at(0), f"{event} null {text} filed"), (finding(VALVE), "null 0"),
         (line_at(0, room=exact), line_of_ring(text, "null")), (line_at(0, room=short), "16 0"), (listed(room=short), "16 0"))
    case("longest name of a thread", RING, of_thread(VALVE, plain), (event_at(0), f"{event} {text} filed null"),
         (finding(VALVE), f"{text} filed 65528 8"), (line_at(0, room=short), "16 0"), (listed(room=exact), line_of_ring("null", text)))
    case("longest text of an event's name", RING, of_event(5, escaped), (event_at(0), f"{event} null {wide} filed"),
         (listed(room=short), "16 0"))
    case("longest text of a thread's name", RING, of_thread(VALVE, escaped), (finding(VALVE), f"{wide} filed 65528 8"),
         (line_at(0, room=short), "16 0"), (listed(room=exact), line_of_ring("null", wide)))
    # Each number is as long as it can be, and the dump has the thread's name.
    reading = Reading(rate=1, unit=16777215, serial=TWO_40 - 4)
    most = holding([[ISR - 1, ISR, ISR, -i % TWO_32, *[ISR] * 4] for i in range(4)], entry(ISR - 1, b"\xff" * 64), size=64, mask=0xFFFFFFFF)
    case("longest line", most, of_event(ISR, escaped), (line_at(3, reading, exact), dict(key=[str(TWO_64 - 1)], event=["\xff" * LONGEST])),
         (line_at(3, reading, short), "16 0"), (listed(reading, short), "16 0"))
    halves = of_event(ISR, b"\xff" * 32760) + of_thread(ISR, b"\xff" * 32760)
    case("longest line, both names of the file", changed(most, entries=[FRESH]), halves, (line_at(3, reading, short), "16 0"), (listed(reading, short), "16 0"))
    forty = holding([slot(VALVE)] * 40)
    for title, names in (("an event's", of_event(5, escaped)), ("a thread's", of_thread(VALVE, escaped))):
        case(f"40 times {title} longest name", forty, names, (listed(room=of(MOST_ROOM["A"])), "16 0"), (line_at(40), "25 0"))


def many():
    """As many events as there can be, each with a record for its id and for its thread; in one order only."""
    def ring(count):
        return holding([slot(VALVE + i, 16, count - i, i) for i in range(count)], current=0)

    def names(count):
        return b"".join(of_event(i + 1, b"e%04d" % (i + 1)) + of_thread(VALVE + i, b"t%04d" % i) for i in range(count))

    told = lambda count, positions: dict(event=["e%04d" % (count - i) for i in positions], name=["t%04d" % i for i in positions])
    case("2,046 events and 4,092 records", ring(2046), names(2046), (listed(room=short), "16 0"), (finding(VALVE + 2045), '"t2045" filed 5 53191'),
         *[(call(i), told(2046, [i])) for i in (0, 1, 1023, 2045) for call in (line_at, event_at)], (event_at(2046), "25 0"))
    case("300 events and 600 records", ring(300), names(300), (listed(room=exact), told(300, range(300))))


# Writing.

EE = b"\xee"


def write_one():
    """A record's bytes, those around it, and its length."""
    case("write an event", None, EE * 20, (writing_event(5, 0, b"start"), "done 13"), ends=START + EE * 7)
    case("write a thread", None, EE * 20, (writing_thread(VALVE, 0, b"valve"), "done 13"), ends=VALVES + EE * 7)
    rows = [("an event, of four bytes", 0, 0x01020304, b"ab", "06000100" "04030201" "6162"),
            ("a thread, of four bytes", 1, 0xF5F6F7F8, b"ab", "06000200" "f8f7f6f5" "6162"),
            ("id 0", 0, 0, b"zero", "08000100" "00000000" "7a65726f"), ("pointer 0", 1, 0, b"zero", "08000200" "00000000" "7a65726f"),
            ("id 4294967295", 0, ISR, b"x", "05000100" "ffffffff" "78"), ("pointer 4294967295", 1, ISR, b"x", "05000200" "ffffffff" "78"),
            ("no bytes", 0, 5, b"", "04000100" "05000000"), ("no bytes, a thread", 1, 5, b"", "04000200" "05000000"),
            ("a zero", 0, 5, b"\0", "05000100" "05000000" "00"), ("zeros around", 1, 5, b"\0a\0", "07000200" "05000000" "006100"),
            ("high bytes", 0, 5, b"\x80\xff", "06000100" "05000000" "80ff")]
    for title, thread, number, called, expected in rows:
        for offset in (0, 1, 3):
            stored = bytes.fromhex(expected)
            case(f"write at {offset}: {title}", None, EE * 24, (("r", (thread, number, offset, called)), f"done {len(stored)}"),
                 ends=EE * offset + stored + EE * (24 - offset - len(stored)))
    every = bytes(range(256))
    case("write every byte", None, EE * 300, (writing_event(5, 20, every), "done 264"),
         ends=EE * 20 + bytes.fromhex("0401010005000000") + every + EE * 16)
    for length, front in ((251, "ff00"), (252, "0001"), (253, "0101")):
        called = b"n" * length
        case(f"write a name of {length} bytes", None, EE * 300, (writing_thread(5, 7, called), f"done {length + 8}"),
             ends=EE * 7 + bytes.fromhex(front + "020005000000") + called + EE * (285 - length))


def write_ends():
    """Both sides of the buffer's end: 16."""
    rows = [(0, 0, b"", "16 0"), (7, 0, b"", "16 0"), (8, 0, b"", "done 8"), (8, 1, b"", "16 0"), (9, 1, b"", "done 8"), (9, 0, b"", "done 8"),
            (9, 9, b"", "16 0"), (9, 10, b"", "16 0"), (12, 0, b"start", "16 0"), (13, 0, b"start", "done 13"), (14, 1, b"start", "done 13"),
            (14, 2, b"start", "16 0"), (14, 13, b"start", "16 0"), (14, 14, b"start", "16 0"), (14, 1000, b"start", "16 0"),
            (14, 65523, b"start", "16 0"), (100, 92, b"", "done 8"), (100, 93, b"", "16 0"), (100, 99, b"", "16 0"), (100, 100, b"", "16 0"),
            (100, 0, b"n" * 92, "done 100"), (100, 0, b"n" * 93, "16 0")]
    for length, offset, called, answer in rows:
        stored = of_event(5, called)
        ends = EE * length if answer == "16 0" else EE * offset + stored + EE * (length - offset - len(stored))
        case(f"write {len(called)} bytes at {offset} of {length}", None, EE * length, (writing_event(5, offset, called), answer), ends=ends)


def write_limits():
    """Both sides of 65,536: 28, which comes before 16."""
    write = lambda title, length, offset, called, answer, ends: case(
        f"write {len(called)} bytes at {offset} of {length}, {title}", None, EE * length, (writing_thread(VALVE, offset, called), answer), ends=ends)
    to_the_end = [(65528, b""), (65527, b"n"), (65523, b"start"), (1, b"n" * 65527), (0, b"n" * 65528)]
    past = [(65529, b""), (65535, b""), (65536, b""), (65537, b""), (65528, b"n"), (65524, b"start"), (1, b"n" * 65528), (0, b"n" * 65529),
            (0, b"n" * 65536), (0, b"n" * 65537), (65536, b"n" * 65537)]
    for offset, called in to_the_end:
        stored = EE * offset + of_thread(VALVE, called)
        assert len(stored) == 65536
        for length in (0, 20, 65535):
            write("too short", length, offset, called, "16 0", EE * length)
        for length in (65536, 65537):
            write("long enough", length, offset, called, f"done {8 + len(called)}", stored + EE * (length - 65536))
    for length in (0, 20, 65535, 65536, 65537):
        for offset, called in past:
            write("past 65,536", length, offset, called, "28 0", EE * length)
    far = [131072, 1 << 31, TWO_32 - 13, TWO_32 - 8, TWO_32 - 1, TWO_32, TWO_32 + 1, 1 << 63, TWO_64 - 65536, TWO_64 - 65528, TWO_64 - 14, TWO_64 - 13,
           TWO_64 - 12, TWO_64 - 9, TWO_64 - 8, TWO_64 - 7, TWO_64 - 1]
    for offset in far:
        for length in (20, 65537):
            calls = [writing_event(5, offset, b""), writing_event(5, offset, b"start"), writing_thread(5, offset, b"n" * 65528),
                     writing_thread(5, offset, b"n" * 65537)]
            case(f"write at {offset} of {length}", None, EE * length, *[(call, "28 0") for call in calls], ends=EE * length)


def write_and_read():
    """Records one after another from 0, each where the one before ended; then they are read."""
    ring = holding([slot(VALVE), slot(ISR, ALARM, 1025), slot(INIT, VALVE, 6), slot(PUMP, 16, 7)], entry(PUMP, b"pump"))
    case("records one after another", ring, EE * 62, *[(call, "27 0") for call in four()],
         (writing_event(5, 0, b"start"), "done 13"), (listed(), "27 13"), (writing_thread(VALVE, 13, b"valve"), "done 13"), (event_at(0), "27 26"),
         (writing_event(1025, 26, b"\0\xff"), "done 10"), (writing_thread(ALARM, 36, b""), "done 8"), (writing_thread(PUMP, 44, b"no"), "done 10"),
         (finding(VALVE), "27 54"), (writing_event(6, 54, b"s"), "16 0"), (writing_event(6, 54, b""), "done 8"), (writing_event(7, 62, b""), "16 0"),
         (finding(VALVE), '"valve" filed 5 21'), (finding(ALARM), '"" filed 0 44'), (finding(PUMP), '"pump" live 4 64'), (finding(INIT), "null 0"),
         *says(id=[5, 1025, 6, 7], event=["start", "\0\xff", "", None], name=["valve", "", None, "pump"], gone=[False] * 4,
               kind=["filed", "filed", "", "live"]),
         ends=BOTH + of_event(1025, b"\0\xff") + of_thread(ALARM, b"") + of_thread(PUMP, b"no") + of_event(6, b""))
    case("records into zeros", ring, bytes(40), (listed(), dict(event=[None] * 4, name=[None, None, None, "pump"])),
         (writing_event(5, 0, b"a"), "done 9"), (listed(), "27 37"), (writing_thread(VALVE, 9, b"bcd"), "done 11"),
         (listed(), dict(event=["a", None, None, None], name=["bcd", None, None, "pump"])), (writing_event(7, 20, b"zero"), "done 12"),
         (event_at(3), dict(event=["zero"], name=["pump"])),
         ends=of_event(5, b"a") + of_thread(VALVE, b"bcd") + of_event(7, b"zero") + bytes(8))
    without_a_file = dict(name=[None, None, None, "pump"])
    case("written for the calls without the file", ring, EE * 13, (without(listed()), without_a_file), (writing_thread(VALVE, 0, b"valve"), "done 13"),
         (without(listed()), without_a_file), (without(finding(VALVE)), "null 0"), (finding(VALVE), '"valve" filed 5 8'), ends=VALVES)


def write_over():
    """Records over others, and refused ones: what is read then."""
    ring = holding([slot(VALVE), slot(INIT, VALVE, 6)])
    case("a record over another", ring, BOTH, (finding(VALVE), '"valve" filed 5 21'), (writing_thread(VALVE, 13, b"other"), "done 13"),
         (finding(VALVE), '"other" filed 5 21'), (writing_event(6, 0, b"stop!"), "done 13"), (event_at(0), dict(event=[None])),
         (event_at(1), dict(event=["stop!"])), (writing_thread(VALVE, 0, b"first"), "done 13"), (finding(VALVE), '"first" filed 5 8'),
         (line_at(1), dict(event=[None], name=[None])), ends=of_thread(VALVE, b"first") + of_thread(VALVE, b"other"))
    case("a record within another's name", ring, of_event(5, b"n" * 30), (writing_thread(VALVE, 10, b"in"), "done 10"), (finding(VALVE), "null 0"),
         (event_at(0), dict(event=["nn\x06\0\2\0\0\x11\0 in" + "n" * 18])), ends=of_event(5, b"nn" + of_thread(VALVE, b"in") + b"n" * 18))
    case("a record across another's start", ring, BOTH, (writing_event(5, 1, b""), "done 8"), (listed(), "27 0"),
         (writing_event(5, 0, b"start"), "done 13"), (listed(), dict(event=["start", None], name=["valve", None])), ends=BOTH)
    case("refused, and read again", ring, BOTH, (writing_event(5, 20, b"start"), "16 0"), (writing_event(5, 65530, b"start"), "28 0"),
         (writing_thread(VALVE, TWO_64 - 1, b"late"), "28 0"), (listed(), dict(event=["start", None], name=["valve", None])), ends=BOTH)


def write_full():
    """A file of 65,536 bytes written in three records, and one longer than may be read; in one order only."""
    ring = holding([slot(VALVE)])
    case("65,536 bytes in three records", ring, EE * 65536, (writing_event(6, 0, b"n" * 65502), "done 65510"), (writing_event(5, 65510, b"start"), "done 13"),
         (listed(), "27 65523"), (writing_thread(VALVE, 65523, b"valve!"), "28 0"), (writing_thread(VALVE, 65523, b"valve"), "done 13"),
         (writing_event(7, 65536, b""), "28 0"), (finding(VALVE), '"valve" filed 5 65531'), (listed(), line_of_ring('"start"', '"valve"')),
         ends=of_event(6, b"n" * 65502) + BOTH)
    case("65,537 bytes", ring, bytes(65537), (listed(), "2 0"), (writing_event(5, 0, b"start"), "done 13"), (listed(), "2 0"),
         (writing_thread(VALVE, 65528, b""), "done 8"), (finding(VALVE), "2 0"), ends=START + bytes(65515) + of_thread(VALVE, b"") + b"\0")


# Seeded cases.

IDENTS = (1, 2, 3, 4, 5, 1025)


def seeded_ring(chance):
    """A dump as the reader's cases have, of few event ids, so that records often have them."""
    dump = seeded_dump(chance)
    for words in dump.slots:
        words[2] = words[2] and chance.one(*IDENTS)
    return dump


def seeded_record(chance):
    """A record for what a dump asks, now and then for another number or of another kind."""
    called = chance.bytes(chance.below(chance.one(3, 20, 80)))
    event, thread = of_event(chance.one(6, *IDENTS), called), of_thread(chance.one(0, *POINTERS), called)
    return chance.one(event, event, thread, thread, record(chance.one(0, 3, 256, chance.bits(16) | 4), called))


def damaged(names, chance):
    """One byte changed, or bytes cut or put behind."""
    place = chance.below(len(names) + 1)
    return chance.one(names[:place], names[:place] + chance.bytes(1) + names[place + 1:], names + chance.bytes(1 + chance.below(9)))


def seeded_names(chance):
    """Records, now and then with some damage."""
    names = b"".join(seeded_record(chance) for _ in range(chance.below(chance.one(2, 9, 9))))
    return damaged(names, chance) if chance.below(6) == 0 else names


def seeded_writes(chance, names):
    """Writes into a name file, mostly one after another, and some that are refused."""
    steps, offset = [], 0
    for _ in range(1 + chance.below(6)):
        called = chance.bytes(chance.one(*[4 * chance.below(6)] * 5, chance.below(40)))
        place = chance.one(*[offset] * 12, chance.below(len(names) + 9), 65536 - chance.below(30), chance.bits(64))
        thread = chance.below(2)
        steps.append((("r", (thread, chance.one(0, *POINTERS) if thread else chance.one(*IDENTS), place, called)), None))
        end = place + 8 + len(called)
        offset = end if place == offset and end <= len(names) else offset
    return steps


def seeded(index, chance, order):
    """A dump and a name file, every second one written into first; then a call of each kind, and some without the file."""
    dump, names, steps = seeded_ring(chance), seeded_names(chance), []
    try:
        count = len(read_events(dump.bytes(order)))
    except Refused:
        count = 0
    if index % 2:
        names = chance.one(*[bytes(4 * chance.below(40))] * 5, names)
        steps = seeded_writes(chance, names)
    reading, position = seeded_reading(chance, count), chance.below(max(count, 1) + chance.one(0, 0, 0, 2))
    room = chance.one(some, some, exact, exact, short, of(chance.below(400)))
    calls = [event_at(position), finding(chance.one(0, *POINTERS)), line_at(position, reading, room), listed(reading, room)]
    calls += [without(call) for call in calls if chance.below(6) == 0]
    return Case(f"seeded {index}", dump, names, [*steps, *[(call, None) for call in calls]], None)


# The replies.

def name_file(letter, names):
    """What the reader is given: the file for a capital letter, none for a small one."""
    return bytes(names) if letter.isupper() else None


def text_of(letter, given, dump, names):
    """The text of a line or of the listing, each line read back."""
    reading, *position, room = given
    call = listing if letter in "aA" else one_line
    text = call(dump, *given, names)
    said = read_fields(dump, reading, names)
    lines = text.splitlines(keepends=True)
    for one, values in zip(lines, said if letter in "aA" else [said[position[0]]], strict=True):
        read_back(one, *values)
    return text


def room_of(letter, given, dump, names):
    """The room that a text gets, by its length where there is one."""
    try:
        call = listing if letter in "aA" else one_line
        text = call(dump, *given[:-1], TWO_64, names)
    except Refused:
        text = ""
    return given[-1](len(text), text.count("\n"))


def answer_to_writing(given, names):
    """The answer of the writing call, which changes the name file unless it refuses."""
    before = bytes(names)
    kind, number, *place = write_record(names, *given)
    if kind == "done":
        return f"done {number}"
    assert bytes(names) == before
    return f"{number} {place[0]}"


def reply_to(letter, given, dump, names):
    """A call's answer, and the reply that the program must print."""
    if letter == "r":
        answer = answer_to_writing(given, names)
        return answer, f"{answer} {digest(bytes(names))}"
    file = name_file(letter, names)
    try:
        if letter in "laLA":
            text = text_of(letter, given, dump, file)
            return text, written(text)
        said = found_name(find_name(dump, *given, file)) if letter in "nN" else shown_event(one_event(dump, *given, file))
        return said, said
    except Refused as refusal:
        return str(refusal), str(refusal) if letter in "eE" else f"{refusal} 0"


def name_parts(text):
    """The name at the start of a text, its kind, and the text behind them."""
    called, end = json.JSONDecoder().raw_decode(text)
    if called is None:
        return None, "", text[end + 1:]
    kind, _, rest = text[end + 1:].partition(" ")
    return called, kind, rest


def parts(letter, answer):
    """The events of an answer, each by the names of its fields."""
    if letter not in "eE":
        return [json.loads(text) for text in answer.splitlines()]
    *words, ticks, by, names = answer.split(" ", 10)
    ptr, field, ident, _, *info = map(int, words)
    called, kind, rest = name_parts(names)
    event = {} if letter == "e" else dict(event=name_parts(rest)[0])
    return [dict(ptr=ptr, field=field, id=ident, info=info, ticks=int(ticks), by=by, name=called, kind=kind, gone=kind == "gone", **event)]


def agrees(letter, by_hand, answer):
    """Whether an answer is what the step says by hand: the answer itself, or some fields of each event in it."""
    if by_hand is None or isinstance(by_hand, str):
        return by_hand in (None, answer)
    events = parts(letter, answer)
    return all([event[field] for event in events] == values for field, values in by_hand.items())


def add(made, order, title, cases):
    """Puts a case into the file, with what it must print."""
    dump = made.dump.bytes(order) if made.dump else b""
    names, calls = bytearray(made.names), []
    for (letter, given), by_hand in made.steps:
        if letter in "laLA":
            given = (*given[:-1], room_of(letter, given, dump, name_file(letter, names)))
        answer, reply = reply_to(letter, given, dump, names)
        if not agrees(letter, by_hand, answer):
            sys.exit(f"{title}, {letter}: by hand {by_hand}, by rule {answer}")
        calls.append((letter, given, reply))
    if made.ends not in (None, bytes(names)):
        sys.exit(f"{title}: by hand the name file ends as {made.ends.hex()}, by rule as {names.hex()}")
    cases.add(title, dump, calls, made.names)


GROUPS = (whole_case, empty_rings, files, other_kinds, texts, firsts, cuts, lengths, lowest, sources, contexts, neighbours, refusals, orders, rooms,
          write_one, write_ends, write_and_read, write_over)
cases = Cases()
for group in GROUPS:
    group()
for order, word in WORDS.items():
    for named in CASES:
        if named.dump is not None:
            add(named, order, f"{named.name}, {word}", cases)
for named in CASES:
    if named.dump is None:
        add(named, "<", named.name, cases)

# The large name files in one order only.
CASES.clear()
for group in (sizes, longest, many, write_limits, write_full):
    group()
for named in CASES:
    add(named, "<", named.name, cases)

chance = Chance(2030)
for index in range(200):
    order = chance.one(*WORDS)
    made = seeded(index, chance, order)
    add(made, order, made.name, cases)

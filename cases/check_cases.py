"""The dumps that the program `cases` puts to the check, and what it must print.

Written from document 01 and not from our code: `answer` of dumps.py reads a dump in Python. Each
named case says by hand the refusal, or the number of events where the dump passes, and the two must
agree, or nothing is written. The seeded dumps have `answer`'s word alone.
"""
import sys

from dumps import WORDS, Dump, answer, changed, damage, shifted
from form import Cases
from made import Chance

CASES = []


def case(name, expected, dump):
    """A case in both orders: a refusal as 'number place', or the event count of a dump that passes."""
    CASES.append((name, expected, dump))


def entry(index, flag, kind):
    dump = Dump()
    dump.entries[index][:2] = [flag, kind]
    return dump


def ident(slots, index, value):
    dump = Dump().use(*slots).at(len(slots) % 4)
    dump.slots[index][2] = value
    return dump


def sound():
    case("empty ring", 0, Dump())
    case("smallest dump", 0, Dump(entries=0, slots=1))
    case("one slot, used", 1, Dump(entries=0, slots=1).use(0))
    case("top of memory, end pointer 0", 4, Dump(entries=4, slots=4, name_size=4, base=0xFFFFFF00).use(0, 1, 2, 3))
    case("base past the registry's wrap", 2, Dump(base=0xFFFFFFE0).use(0, 1).at(2))
    case("reserved fields hold anything", 1,
         changed(Dump().use(0).at(1), reserved=[0xFFFF, 0xFFFFFFFF, 0x54585442, 1]))
    case("bytes past the buffer end hold anything", 1, changed(Dump().use(0).at(1), tail=b"\xff" * 77))


def length():
    case("length 0", "1 0", changed(Dump(), cut=0))
    case("length 47", "1 0", changed(Dump(), cut=47))
    case("length 48 passes 1", "26 72", changed(Dump(), cut=48))
    full = Dump(entries=0, slots=2046).use(*range(2046))
    case("length 65536", 2046, changed(full, cut=65536))
    case("length 65537", "2 0", changed(Dump(), cut=65537))
    case("length 65537 with a bad id", "2 0", changed(Dump(), cut=65537, id=0))
    case("length 47 with a bad id", "1 0", changed(Dump(), cut=47, id=0))


def identity():
    for place in range(4):
        case(f"id byte {place} is 43", "3 0", changed(Dump(), raw={place: 0x43}))
    case("id 0", "3 0", changed(Dump(), id=0))
    case("id in neither order", "3 0", changed(Dump(), id=0x58544254))


def mask():
    for width in (1, 2, 16, 31, 32):
        case(f"mask of width {width}", 0, changed(Dump(), mask=(1 << width) - 1))
    for value in (0, 2, 5, 0xFF00, 0x80000000, 0xFFFFFFFE, 0x7FFFFFFE, 0xFFFEFFFF):
        case(f"mask {value:#x}", "4 0", changed(Dump(), mask=value))


def name_size():
    for size in range(4, 65, 4):
        case(f"name size {size}", 0, Dump(name_size=size))
    for size in (0, 1, 3, 5, 6, 7, 63, 65, 66, 68, 0x0400, 0xFFFC):
        case(f"name size {size} refused", "5 0", changed(Dump(), name_size=size))


def registry():
    for by in (-1, 1, -48, 4):
        case(f"registry start off by {by}", "6 0", shifted("registry_start", by))
    case("no entries", 0, Dump(entries=0))
    case("registry end offset 47", "7 0", shifted("registry_end", -1, entries=0))
    case("registry end offset 24", "7 0", shifted("registry_end", -24, entries=0))
    case("registry end below the base", "7 0", shifted("registry_end", -49, entries=0))
    case("registry end one short of whole entries", "7 0", shifted("registry_end", -1))
    case("registry end one past whole entries", "7 0", shifted("registry_end", 1))
    case("registry end above 65,536", "7 0", shifted("registry_end", 65544 - 120))
    for by in (-1, 1, -24, 32):
        case(f"buffer start off by {by}", "8 0", shifted("buffer_start", by))


def buffer():
    case("buffer end at its start", "9 0", shifted("buffer_end", -128))
    case("buffer end below its start", "9 0", shifted("buffer_end", -160))
    case("buffer end one short of a slot", "9 0", shifted("buffer_end", -97))
    case("buffer of one slot, more bytes behind", 0, shifted("buffer_end", -96))
    case("buffer end one past a slot", "9 0", shifted("buffer_end", -95))
    case("buffer end one slot before the dump's end", 0, shifted("buffer_end", -32))
    case("buffer end 65,536", 0, Dump(entries=1, slots=2044, name_size=64))
    case("buffer end 65,536, more bytes behind", "2 0", changed(Dump(entries=1, slots=2044, name_size=64), cut=65537))
    case("buffer end a slot above 65,536", "9 0", shifted("buffer_end", 65568 - 160, entries=1, slots=1, name_size=64))
    case("buffer end a slot above 65,536, all but that slot there", "9 0",
         shifted("buffer_end", 32, entries=1, slots=2044, name_size=64))
    case("current one slot before the start", "10 0", shifted("current", -32))
    case("current one byte before the start", "10 0", shifted("current", -1))
    case("current one byte past the start", "10 0", shifted("current", 1))
    case("current one byte before slot 1", "10 0", shifted("current", 31))
    case("current at the last slot", 3, Dump().use(0, 1, 2).at(3))
    case("current at the end", "10 0", shifted("current", 128))
    case("current one byte before the end", "10 0", shifted("current", 127))
    case("current a slot past the end", "10 0", changed(Dump().at(5), tail=bytes(64)))


def cut_short():
    """An end beyond the dump: the count of missing bytes. The registry ends at 120, the buffer at 248."""
    for length, expected in ((47, "1 0"), (48, "26 72"), (49, "26 71"), (119, "26 1"), (120, "26 128"), (121, "26 127"),
                             (247, "26 1"), (248, 2), (249, 2)):
        case(f"cut to {length} bytes", expected, changed(Dump().use(0, 1).at(2), cut=length))
    case("cut at the top of memory, end pointer 0", "26 1", changed(Dump(entries=4, slots=4, name_size=4, base=0xFFFFFF00), cut=255))
    case("registry end far past the dump", "26 65272", shifted("registry_end", 65520 - 120))
    case("registry end past the dump, not whole entries", "7 0", shifted("registry_end", 241))
    case("buffer end one slot past the dump", "26 32", shifted("buffer_end", 32))
    case("buffer end past the dump, not whole slots", "9 0", shifted("buffer_end", 33))
    case("buffer end 65,536, one byte missing", "26 1", changed(Dump(entries=1, slots=2044, name_size=64), cut=65535))
    case("buffer end 65,536, one slot there", "26 65376", shifted("buffer_end", 65536 - 160, entries=1, slots=1, name_size=64))


def types():
    for kind in (1, 2, 14, 21, 28):
        case(f"type {kind} in use", 0, entry(1, 0, kind))
    for kind in (0, 15, 20, 29, 255):
        case(f"type {kind} in use refused", "11 1", entry(1, 0, kind))
        case(f"type {kind} in a free entry", 0, entry(1, 1, kind))
    for flag in (2, 255):
        case(f"flag {flag} is in use", "11 2", entry(2, flag, 0))
    case("bad type in the first entry", "11 0", entry(0, 0, 15))
    two = entry(1, 0, 20)
    two.entries[2][1] = 29
    case("two bad types give the lower", "11 1", two)


def ring():
    case("one used, current after it", 1, Dump().use(0).at(1))
    case("full ring, current at the start", 4, Dump().use(0, 1, 2, 3))
    for index in range(4):
        case(f"full ring, current at {index}", 4, Dump().use(0, 1, 2, 3).at(index))
    case("current used, a later slot unused", "12 3", Dump().use(0, 1, 2).at(1))
    case("current used, an earlier slot unused", "12 0", Dump().use(1, 2, 3).at(2))
    case("current alone used", "12 0", Dump().use(2).at(2))
    case("current used at 0 alone", "12 1", Dump().use(0).at(0))
    case("current unused, an earlier slot unused", "12 1", Dump().use(0, 2).at(3))
    case("current unused, the slot before it unused", "12 2", Dump().use(0, 1).at(3))
    case("current unused, a later slot used", "12 3", Dump().use(0, 1, 3).at(2))
    case("current unused, the slot after it used", "12 2", Dump().use(0, 2).at(1))
    case("current unused at 0, the last slot used", "12 3", Dump().use(3).at(0))
    case("two slots out of turn give the lower", "12 0", Dump().use(1, 3).at(2))


def ids():
    for value in (1, 1024, 1025, 0xFFFFFFFF):
        case(f"event id {value}", 2, ident([0, 1], 1, value))
    case("event id 0 in the first slot", "13 0", ident([0, 1], 0, 0))
    case("event id 0 in slot 1", "13 1", ident([0, 1], 1, 0))
    case("event id 0 in the last slot of a full ring", "13 3", ident([0, 1, 2, 3], 3, 0))
    case("event id 0 at current of a full ring", "13 0", ident([0, 1, 2, 3], 0, 0))
    two = ident([0, 1, 2], 1, 0)
    two.slots[2][2] = 0
    case("two event ids 0 give the lower", "13 1", two)
    unused = Dump().use(0).at(1)
    unused.slots[2] = [0, 7, 0, 9, 1, 1, 1, 1]
    case("an unused slot may hold other words", 1, unused)


def order_of_rows():
    """Two rows broken at once: the earlier one is given."""
    case("3 before 4", "3 0", changed(Dump(), id=1, mask=0))
    case("4 before 5", "4 0", changed(Dump(), mask=0, name_size=3))
    case("5 before 6", "5 0", changed(shifted("registry_start", 1), name_size=3))
    case("6 before 7", "6 0", changed(shifted("registry_start", 1), registry_end=0))
    case("7 before 8", "7 0", shifted("registry_end", 1))
    case("6 before 26", "6 0", changed(shifted("registry_start", 1), cut=100))
    case("26 before 8", "26 112", shifted("registry_end", 240))
    case("26 at the registry end before 9", "26 20", changed(shifted("buffer_end", 1), cut=100))
    case("26 at the registry end before 26 at the buffer end", "26 20", changed(Dump(), cut=100))
    case("8 before 26 at the buffer end", "8 0", changed(shifted("buffer_start", 32), cut=200))
    case("26 at the buffer end before 10", "26 48", changed(Dump(), current=0, cut=200))
    case("26 at the buffer end before 11", "26 48", changed(entry(1, 0, 0), cut=200))
    case("8 before 9", "8 0", changed(shifted("buffer_start", 1), buffer_end=0))
    case("9 before 10", "9 0", changed(shifted("buffer_end", 1), current=0))
    case("10 before 11", "10 0", changed(entry(0, 0, 0), current=0))
    late = entry(2, 0, 0).use(1)
    case("11 before 12", "11 2", late)
    both = Dump().use(1, 2)
    both.slots[1][2] = 0
    case("12 before 13", "12 1", both)


def seeded(chance):
    """A dump that was sound, with up to two things changed."""
    dump = Dump(chance.below(5), 1 + chance.below(6), 4 + 4 * chance.below(16),
                chance.one(0, 0x20000000, 0xFFFFFF00, 0xFFFFFFE0))
    current = chance.below(len(dump.slots))
    dump.use(*range(chance.one(current, len(dump.slots)))).at(current)
    for item in dump.entries:
        item[:2] = [chance.one(0, 1, 2, 255), chance.one(1, 14, 21, 28)]
    for _ in range(chance.below(3)):
        damage(dump, chance)
    dump.tail = chance.bytes(chance.below(4) * 11)
    return dump


cuts = Chance(96)


def calls(raw, said):
    """The check of the whole, and of the same bytes in pieces, cut by chance: a first piece, an empty one, and others of one length."""
    given = [(cuts.below(len(raw) + 1), step) for step in (1 if len(raw) < 4096 else 64, 1 + cuts.below(80), 65536)]
    return [("c", (), said)] + [("p", cut, said) for cut in given]


for group in (sound, length, identity, mask, name_size, registry, buffer, cut_short, types, ring, ids, order_of_rows):
    group()

cases = Cases()
for order, word in WORDS.items():
    for name, expected, dump in CASES:
        raw = dump.bytes(order)
        given = answer(raw)
        said = given if " " in str(expected) and given == expected else None
        if isinstance(expected, int):
            said = given if given.split()[0] == word and given.split()[-1] == str(expected) else None
        if said is None:
            sys.exit(f"{name}, {word}: by hand {expected}, by rule {given}")
        cases.add(f"{name}, {word}", raw, calls(raw, said))

chance = Chance(2026)
for index in range(600):
    raw = seeded(chance).bytes(chance.one("<", ">"))
    cases.add(f"seeded {index}", raw, calls(raw, answer(raw)))

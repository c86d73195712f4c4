#!/usr/bin/env python3
"""The numbers and lines that the program text_cases prints, and what it must print.

The expected text is written by Python's json where document 01 asks for plain JSON, and by hand
where it asks for \\u00 and two digits. Each line is then read by Python's JSON parser, and must
give the case's own values.

    text_cases.py          writes data/cases and stdout of the crate text_cases
    text_cases.py --check  says whether they are as this script makes them
"""
import struct

from made import Chance, keep
from texts import DOCUMENT, DOCUMENT_WITH_NAMES, LIMIT, NO_MEMBER, line, name, number, read_back

MOST, WORD = (1 << 64) - 1, (1 << 32) - 1

NUMBERS = [9, 10, 99, 100, 101, 4294967295, 4294967296]
NUMBERS += [n for k in range(20) for n in (10**k - 1, 10**k)]
NUMBERS += [LIMIT - 1, LIMIT, LIMIT + 1, LIMIT + 2, LIMIT + 3, 1 << 63, MOST - 2048, MOST - 1024, MOST - 1023, MOST]

WHOLE_CASE = [
    (LIMIT, 0, 0, 5, 536875008, 2, 16, (1, 2, 3, 4), b"pump", False),
    (LIMIT + 1, 56, 18, 1025, 4294967295, 1, 536875008, (0, 0, 0, 0), b"pump", False),
    (LIMIT + 2, 56, 18, 6, 536879104, 2, 16, (7, 0, 0, 0), None, False),
]
PLAIN = (1, 2, 3, 4, 5, 2, 6, (7, 8, 9, 10))
LINES = list(WHOLE_CASE)
# Every byte as a name, every second one gone.
LINES += [PLAIN + (bytes([b]), b % 2 == 1) for b in range(256)]
LINES += [PLAIN + (called, gone) for gone in (False, True)
          for called in (b"", None, bytes(range(256)), b"\xff" * 64, b'A"\n', b"\\" * 3)]
LINES += [(n, n, n, WORD, WORD, by, WORD, (WORD, 0, WORD, 0), b"pump", gone)
          for gone in (False, True) for by in range(3) for n in (0, LIMIT - 1, LIMIT, LIMIT + 1, MOST)]
# With any name that a dump can hold, the longest line is a thread's whose "gone" is false.
LINES += [(MOST, MOST, MOST, WORD, WORD, by, WORD, (WORD,) * 4, called, gone)
          for called in (b"\xff" * 64, None) for gone in (False, True) for by in range(3)]
# The limit as key and as microseconds; each line is named after its case.
LINES += [case for n, title in ((LIMIT - 1, b"2^53 - 1"), (LIMIT, b"2^53"), (LIMIT + 1, b"2^53 + 1"))
          for case in ((n, *PLAIN[1:], b"key " + title, False), (*PLAIN[:2], n, *PLAIN[3:], b"us " + title, False))]

chance = Chance(2026)
NUMBERS += [chance.bits(64) for _ in range(1000)]
for _ in range(200):
    called = None if chance.below(4) == 0 else chance.bytes(chance.below(65))
    LINES.append((chance.bits(64), chance.bits(63), chance.bits(64), chance.bits(32), chance.bits(32), chance.below(3),
                  chance.bits(32), tuple(chance.bits(32) for _ in range(4)), called, chance.below(2) == 1))

WITH_NAMES = [(*case[:8], called, False, event) for case, called, event in zip(WHOLE_CASE, (b"pump", b"pump", b"valve"), (b"start", None, None))]
LINES += WITH_NAMES
# Every byte as an event's name.
LINES += [PLAIN + (b"pump", False, bytes([b])) for b in range(256)]
# Zeros are part of a name from a name file; a thread's may be as long as an event's.
NAMES = (b"", None, bytes(range(256)), b"\xff" * 256, b'A"\n', b"\\" * 3, b"\0", b"a\0b\0", b"null")
LINES += [PLAIN + (called, False, event) for called in NAMES for event in NAMES]
LINES += [PLAIN + (b"pump", True, event) for event in NAMES]
LINES += [(MOST, MOST, MOST, WORD, WORD, by, WORD, (WORD,) * 4, called, gone, event)
          for event in (b"\xff" * 64, None) for called in (b"\xff" * 64, None) for gone in (False, True) for by in range(3)]
LINES += [(n, n, n, n % (WORD + 1), 1, by, 0, (0, 1, 2, 3), b"pump", False, b"start") for by in range(3) for n in (0, LIMIT - 1, LIMIT, MOST)]
for _ in range(200):
    called, event = (None if chance.below(4) == 0 else chance.bytes(chance.below(chance.one(9, 65, 257))) for _ in range(2))
    LINES.append((chance.bits(64), chance.bits(63), chance.bits(64), chance.bits(32), chance.bits(32), chance.below(3),
                  chance.bits(32), tuple(chance.bits(32) for _ in range(4)), called, chance.below(2) == 1, event))


def given(called):
    """A name by its length and its bytes; of none both are nothing."""
    own = called if isinstance(called, bytes) else b""
    return struct.pack("<H", len(own)) + own


def fields(key, ticks, us, id, ptr, by, field, info, called, gone, event=NO_MEMBER):
    """A line's fields as the program reads them."""
    numbers = struct.pack("<QQQIIBIIIII", key, ticks, us, id, ptr, by, field, *info)
    # No such member, null, or a name.
    member = 0 if event is NO_MEMBER else 1 if event is None else 2
    return numbers + bytes([member]) + given(event) + bytes([called is not None, gone]) + given(called)


data, out = bytearray(), []
for n in NUMBERS:
    data += b"n" + struct.pack("<Q", n)
    out.append(f"{number(n)} {len(number(n))} {min(int(float(n)), MOST)}\n")
for case in LINES:
    data += b"l" + fields(*case)
    text = line(*case)
    read_back(text, *case)
    out.append(f"{text}{len(text)} 0 0 {len(text)} 0 0\n")

assert "".join(line(*case) for case in WHOLE_CASE) == DOCUMENT
assert "".join(line(*case) for case in WITH_NAMES) == DOCUMENT_WITH_NAMES
assert name(b'A"\n') == '"A\\"\\u000a"'
assert number(9007199254 * 1000000) == "9007199254000000" and number(9007199255 * 1000000) == '"9007199255000000"'

keep(__file__, {"data/cases": bytes(data), "stdout": "".join(out).encode()},
     f"{len(NUMBERS)} numbers, {len(LINES)} lines, {len(data)} bytes")

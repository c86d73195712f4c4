#!/usr/bin/env python3
"""The command ./lepsaino as a shell sees it: what it prints, where, and its exit status."""
import csv
import ctypes
import io
import json
import os
import re
import resource
import shutil
import signal
import socket
import stat
import struct
import subprocess
import sys
import tempfile
import time
from pathlib import Path

ROOT = Path(__file__).resolve().parent.parent
sys.dont_write_bytecode = True
sys.path.insert(0, str(ROOT / "cases"))

from dumps import Dump, entry
from reader import Reading, listing
from snippets import faults_of, working_folder

PUMP = (ROOT / "crates/lepsaino/data/pump.dump").read_bytes()
LINES = (ROOT / "crates/lepsaino/stdout").read_bytes()
EMPTY = PUMP[:32] + PUMP[24:28] + PUMP[36:72] + bytes(96)
FULL = Dump(entries=0, slots=2046).use(*range(2046)).bytes("<")
FULL_LINES = listing(FULL, Reading(3000000, 8192, 0), 1500000).encode()
CUT = (ROOT / "crates/lepsaino/data/cut.dump").read_bytes()
USAGE = b"usage: lepsaino FILE RATE UNIT SERIAL [NAMES], or lepsaino mend FILE COPY; lepsaino --help says more\n"
MEND_USAGE = b"usage: lepsaino mend FILE COPY; lepsaino --help says more\n"
HELP = b"usage: lepsaino FILE RATE UNIT SERIAL [NAMES]\n       lepsaino mend FILE COPY\n       lepsaino --help | --version\n"
HEADER = (ROOT / "include/lepsaino.h").read_text()
WORDS = dict(re.findall(r"^ \* {1,2}(\d+)  (.*)$", HEADER, re.M))
GOOD = ("3000000", "8192", "0")
faults = []


def check(what, holds, seen):
    if not holds:
        faults.append(f"{what}: {seen}")


def run(folder, *arguments, script=ROOT / "lepsaino", stdout=subprocess.PIPE, timeout=60, **options):
    """The command, started in another folder than the repository."""
    return subprocess.run([script, *arguments], cwd=folder, stdout=stdout, stderr=subprocess.PIPE, timeout=timeout, **options)


def in_words(refusal):
    """What standard error says of a refusal's line: the header's words, with the place in them."""
    number, place = refusal.decode().split()
    return f"lepsaino: {number}: {WORDS[number].replace('N', place)}\n".encode()


def wrong(name):
    """What is said of an argument that is no number, or too large for its type: the range that is accepted, by the rules."""
    least, most = {"RATE": (1, HALF), "UNIT": (0, 2 ** 24 - 1), "SERIAL": (0, 2 ** 40)}[name]
    return f"{name} is no decimal number from {least} to {most}\n".encode()


def removed_threads():
    """A big-endian dump with removed threads, and its lines, by hand: in-use entries count before free ones, the lowest of each."""
    entries = [
        # flag, type, pointer, name; the sixth is as formatting leaves it
        (1, 1, 0x20001000, b"first"),
        (1, 1, 0x20001100, b"valve"),
        (0, 1, 0x20001000, b"pump"),
        (1, 1, 0x20001100, b"later"),
        (1, 2, 0x20001200, b"queue"),
        (1, 0, 0, b""),
        (1, 1, 0xF0F0F0F0, b"start"),
    ]
    events = [
        # thread pointer, priority field, what the line says of them
        (0x20001000, 16, '"thread","name":"pump","gone":false'),
        (0x20001100, 16, '"thread","name":"valve","gone":true'),
        (0xFFFFFFFF, 0x20001100, '"isr","name":"valve","gone":true'),
        (0x20001200, 16, '"thread","name":null,"gone":false'),
        (0xFFFFFFFF, 0, '"isr","name":null,"gone":false'),
        (0xF0F0F0F0, 0x20001100, '"init","name":null,"gone":false'),
    ]
    base, start = 0x20000000, 48 + 24 * len(entries)
    end = start + 32 * len(events)
    dump = struct.pack(">12I", 0x54585442, HALF, base, base + 48, 8, base + start, base + start, base + end, base + start, 0, 0, 0)
    for flag, kind, pointer, name in entries:
        dump += struct.pack(">BB2xIII8s", flag, kind, pointer, 0, 0, name)
    lines = ""
    for stamp, (pointer, field, said) in enumerate(events):
        dump += struct.pack(">8I", pointer, field, 5, stamp, 1, 2, 3, 4)
        lines += f'{{"key":{stamp},"ticks":{stamp},"us":{stamp},"id":5,"ptr":{pointer},"by":{said},"field":{field},"info":[1,2,3,4]}}\n'
    return dump, lines.encode()


HALF, WHOLE = (1 << 32) - 1, (1 << 64) - 1
# Removing sets the entry's flag and nothing else.
REMOVED = PUMP[:48] + b"\1" + PUMP[49:]
REMOVED_LINES = LINES.replace(b'"name":"pump","gone":false', b'"name":"pump","gone":true')
THREADS, THREADS_LINES = removed_threads()
CASES = [
    # the dump, the arguments after it, standard output, standard error (that of a refusal has it in words), the exit status
    (PUMP, GOOD, LINES, b"", 0),
    (REMOVED, GOOD, REMOVED_LINES, b"", 0),
    (THREADS, ("1000000", "0", "0"), THREADS_LINES, b"", 0),
    (FULL, GOOD, FULL_LINES, b"", 0),
    (EMPTY, ("1", "0", "0"), b"", b"", 0),
    (PUMP[:47], ("1", "0", "0"), b"1 0\n", None, 1),
    (PUMP[:48], GOOD, b"26 24\n", None, 1),
    (PUMP[:72], GOOD, b"26 96\n", None, 1),
    (PUMP[:167], GOOD, b"26 1\n", None, 1),
    (PUMP + bytes(65536 - len(PUMP)), GOOD, LINES, b"", 0),
    (PUMP + bytes(65537 - len(PUMP)), GOOD, b"2 0\n", None, 1),
    (PUMP + bytes(99999), GOOD, b"2 0\n", None, 1),
    (b"", ("1", "0", "0"), b"1 0\n", None, 1),
    (PUMP, ("0", "8192", "0"), b"14 0\n", None, 1),
    (PUMP, ("1", str(HALF), str(WHOLE)), b"15 0\n", None, 1),
    (PUMP, (str(HALF + 1), "8192", "0"), b"", wrong("RATE"), 2),
    (PUMP, ("1", str(HALF + 1), "0"), b"", wrong("UNIT"), 2),
    (PUMP, ("1", "1", str(WHOLE + 1)), b"", wrong("SERIAL"), 2),
    (PUMP, ("1", "1", str(WHOLE * 10)), b"", wrong("SERIAL"), 2),
    (PUMP, ("", "8192", "0"), b"", wrong("RATE"), 2),
    (PUMP, ("-1", "8192", "0"), b"", wrong("RATE"), 2),
    (PUMP, ("1", "0x10", "0"), b"", wrong("UNIT"), 2),
    (PUMP, ("1", "8192"), b"", USAGE, 2),
    (PUMP, ("1", "8192", "0", "names", "more"), b"", USAGE, 2),
]


def plain(folder):
    """Listings, refusals and errors, where nothing is in the way."""
    path = Path(folder) / "a dump"
    for dump, arguments, out, error, status in CASES:
        path.write_bytes(dump)
        done = run(folder, path.name, *arguments)
        error = in_words(out) if error is None else error
        check(f"{len(dump)} bytes, {arguments}", (done.stdout, done.stderr, done.returncode) == (out, error, status), done)
    for name, said in (("none", b"none: No such file or directory\n"), (".", b".: Is a directory\n"), ("", None)):
        done = run(folder, name, "1", "1", "1")
        one_line = not done.stdout and done.returncode == 2 and done.stderr.count(b"\n") == 1
        check(repr(name), one_line and said in (None, done.stderr), done)


def record(kind, number, name=b""):
    """A record of a name file: kind 1 names an event, 2 a thread."""
    return struct.pack("<HHI", 4 + len(name), kind, number) + name


def with_null(lines):
    """The lines with a name file that names none of their events."""
    return re.sub(rb'"id":\d+', rb'\g<0>,"event":null', lines)


def named(dump, names):
    """The listing with a name file, by the reader that is written from the rules."""
    return listing(dump, Reading(3000000, 8192, 0), 10 ** 9, names).encode()


NAMES = record(1, 5, b"start") + record(2, 0x20002000, b"valve")
NAMED_LINES = b"""\
{"key":"9007199254740992","ticks":0,"us":0,"id":5,"event":"start","ptr":536875008,"by":"thread","name":"pump","gone":false,"field":16,"info":[1,2,3,4]}
{"key":"9007199254740993","ticks":56,"us":18,"id":1025,"event":null,"ptr":4294967295,"by":"isr","name":"pump","gone":false,"field":536875008,"info":[0,0,0,0]}
{"key":"9007199254740994","ticks":56,"us":18,"id":6,"event":null,"ptr":536879104,"by":"thread","name":"valve","gone":false,"field":16,"info":[7,0,0,0]}
"""
OTHERS = struct.pack("<HH", 0, 0) + struct.pack("<HH", 3, 3) + b"abc" + struct.pack("<HH", 5, 65535) + b"12345"
# A longer name for each event of the full dump makes its listing longer by 2,046 bytes; the first of these still fits in the program's room.
FITTING = (1583604 - len(FULL_LINES)) // 2046 - len(',"event":""')
LONG_NAMES = record(1, 5, b"x" * (FITTING + 1))
LONG_LINES = named(FULL, LONG_NAMES)
# These make a listing of more than one of the parts in which the script keeps it.
LONGER_NAMES = record(1, 5, b"\xff" * 300) + record(2, 0x20001000, b'"' * 300)
NAMED = [
    # the dump, the name file, the arguments between them, standard output, the exit status
    (PUMP, NAMES, GOOD, NAMED_LINES, 0),
    (PUMP, b"", GOOD, with_null(LINES), 0),
    (EMPTY, NAMES, GOOD, b"", 0),
    (PUMP, OTHERS + NAMES + OTHERS, GOOD, NAMED_LINES, 0),
    (PUMP, NAMES + record(1, 5, b"later") + record(2, 0x20002000, b"later"), GOOD, NAMED_LINES, 0),
    (PUMP, record(2, 5, b"start") + record(1, 0x20002000, b"valve"), GOOD, with_null(LINES), 0),
    (PUMP, record(2, 0x20001000, b"file's"), GOOD, with_null(LINES), 0),
    (REMOVED, record(2, 0x20001000, b"file's"), GOOD, with_null(REMOVED_LINES), 0),
    (PUMP, record(1, 5), GOOD, with_null(LINES).replace(b'"event":null', b'"event":""', 1), 0),
    (THREADS, record(2, 0x20001200, b"a\0\xff"), ("1000000", "0", "0"), with_null(THREADS_LINES).replace(b'"name":null', b'"name":"a\\u0000\\u00ff"', 1), 0),
    (PUMP, bytes(65536), GOOD, with_null(LINES), 0),
    (PUMP, record(1, 5, b"\xff" * 65528), GOOD, with_null(LINES).replace(b"null", b'"' + b"\\u00ff" * 65528 + b'"', 1), 0),
    (FULL, record(1, 5, b"x" * FITTING), GOOD, named(FULL, record(1, 5, b"x" * FITTING)), 0),
    (FULL, LONG_NAMES, GOOD, LONG_LINES, 0),
    (FULL, LONGER_NAMES, GOOD, named(FULL, LONGER_NAMES), 0),
    (PUMP, bytes(65537), GOOD, b"2 0\n", 1),
    (PUMP, b"\4" + bytes(99999), GOOD, b"2 0\n", 1),
    (PUMP, b"\4", GOOD, b"27 0\n", 1),
    (PUMP, NAMES[:-1], GOOD, b"27 13\n", 1),
    (PUMP, NAMES + b"\0\0\3", GOOD, b"27 26\n", 1),
    (PUMP, NAMES + struct.pack("<HH", 3, 1) + b"abc", GOOD, b"27 26\n", 1),
    (PUMP, NAMES + struct.pack("<HH", 3, 2) + b"abc" + b"\4", GOOD, b"27 26\n", 1),
    (EMPTY, b"\4", GOOD, b"27 0\n", 1),
    (PUMP[:47], b"\4", GOOD, b"1 0\n", 1),
    (PUMP, b"\4", ("0", "8192", "0"), b"14 0\n", 1),
    (PUMP, b"\4", ("1", str(HALF), "0"), b"15 0\n", 1),
]


def names_events(folder):
    """Listings and refusals with a name file, and those without one as ever."""
    check("a listing longer than the program's room", len(LONG_LINES) - 2046 <= 1583604 < len(LONG_LINES), len(LONG_LINES))
    check("a listing of several parts", len(named(FULL, LONGER_NAMES)) > 4000000, len(named(FULL, LONGER_NAMES)))
    for dump, names, arguments, out, status in NAMED:
        here = place(folder, dump=dump, **{"the names": names})
        done = run(here, "dump", *arguments, "the names")
        right = (done.stdout, done.stderr, done.returncode) == (out, error_of(out, status), status)
        check(f"{len(dump)} bytes, {arguments}, {len(names)} bytes of names", right, (out[:999], done.stdout[:999], done.stderr, done.returncode))
    here = place(folder, bad=NAMES + b"\4", dump=PUMP)
    said = b"lepsaino: 27: the record at offset 26 of the name file runs past its end, or names an event or a thread and is shorter than 4 bytes\n"
    check("27 26", run(here, "dump", *GOOD, "bad").stderr == said, said)


def names_by_standard_input(folder):
    """One of the two may be a dash, not both; a name file that cannot be read is an error."""
    def must_give(what, done, out=NAMED_LINES, error=b"", status=0):
        check(what, (done.stdout, done.stderr, done.returncode) == (out, error, status), done)

    here = place(folder, dump=PUMP, names=NAMES, **{"-": NAMES, "mend": NAMES})
    must_give("names by a pipe", run(here, "dump", *GOOD, "-", input=NAMES))
    must_give("no names by a pipe", run(here, "dump", *GOOD, "-", input=b""), with_null(LINES))
    must_give("long names by a pipe", run(here, "dump", *GOOD, "-", input=bytes(999999)), b"2 0\n", in_words(b"2 0"), 1)
    must_give("a dump by a pipe, with names", run(here, "-", *GOOD, "names", input=PUMP))
    for name in ("./-", "mend"):
        must_give(f"names in {name}", run(here, "dump", *GOOD, name))
    must_give("both by a dash", run(here, "-", *GOOD, "-", input=PUMP), b"", b"FILE and NAMES cannot both be a dash\n", 2)
    done = run(here, "dump", *GOOD, "-", preexec_fn=lambda: os.close(0))
    must_give("names by a closed input", done, b"", b"standard input: Bad file descriptor\n", 2)
    must_give("names that are not there", run(here, "dump", *GOOD, "none"), b"", b"none: No such file or directory\n", 2)
    must_give("a folder of names", run(here, "dump", *GOOD, "."), b"", b".: Is a directory\n", 2)
    for name in ("", "n" * 4097):
        must_give(f"names in {name[:9]!r}", run(here, "dump", *GOOD, name), b"", b"NAMES's name is empty, or longer than 4096 bytes\n", 2)
    (here / "names").chmod(0)
    if subprocess.run(["test", "-r", here / "names"], preexec_fn=blind).returncode:
        must_give("names that may not be read", run(here, "dump", *GOOD, "names", preexec_fn=blind), b"", b"names: Permission denied\n", 2)


def says_refusals(folder):
    """What the place counts is said in words; 11 3 is the example of README.md."""
    dump = Dump(entries=5, slots=1)
    for index in (3, 4):
        dump.entries[index] = entry(7, b"valve", kind=15)
    here = place(folder, bad=dump.bytes("<"))
    done = run(here, "bad", *GOOD)
    said = b"lepsaino: 11: entry 3 is in use with a type that is not allowed\n"
    check("11 3", (done.stdout, done.stderr, done.returncode) == (b"11 3\n", said, 1), done)
    check("words for every number", sorted(map(int, WORDS)) == list(range(1, len(WORDS) + 1)) and len(WORDS) >= 28, WORDS)


def by_standard_input(folder):
    """A dash is standard input from where it stands: a file, a pipe, a socket, or none. A file of that name has another."""
    def must_list(what, done, out=LINES, error=b"", status=0):
        check(f"{what} as standard input", (done.stdout, done.stderr, done.returncode) == (out, error, status), done)

    here = place(folder, dump=PUMP, behind=b"front" + PUMP, **{"-": CUT})
    with open(here / "dump", "rb") as dump:
        must_list("a file", run(here, "-", *GOOD, stdin=dump))
    with open(here / "behind", "rb") as dump:
        os.lseek(dump.fileno(), 5, os.SEEK_SET)
        must_list("a file's rest", run(here, "-", *GOOD, stdin=dump))
    must_list("a pipe", run(here, "-", *GOOD, input=PUMP))
    must_list("a long pipe", run(here, "-", *GOOD, input=PUMP + bytes(999999)), b"2 0\n", in_words(b"2 0"), 1)
    must_list("nothing", run(here, "-", *GOOD, input=b""), b"1 0\n", in_words(b"1 0"), 1)
    ours, theirs = socket.socketpair()
    with ours, theirs:
        ours.sendall(PUMP)
        ours.shutdown(socket.SHUT_WR)
        must_list("a socket", run(here, "-", *GOOD, stdin=theirs))
    must_list("a folder", run(here, "-", *GOOD, stdin=os.open(here, os.O_RDONLY)), b"", b"standard input: Is a directory\n", 2)
    must_list("none", run(here, "-", *GOOD, preexec_fn=lambda: os.close(0)), b"", b"standard input: Bad file descriptor\n", 2)
    must_list("a file of that name, not", run(here, "./-", *GOOD), b"26 18\n", in_words(b"26 18"), 1)
    done = run(here, "mend", "-", "copy", input=ALL)
    must_mend("by a pipe", done, here / "copy", ["dump", "behind", "-"])


# What is printed, the arguments, standard output, the exit status.
PRINTED = [
    ("a listing", ("pump", *GOOD), LINES, 0),
    ("a long listing", ("full", *GOOD), FULL_LINES, 0),
    ("a longer listing", ("full", *GOOD, "names"), LONG_LINES, 0),
    ("a refusal", ("short", *GOOD), b"1 0\n", 1),
    ("the help", ("--help",), None, 0),
]


def limit(size):
    """No regular file may grow beyond that: it stands for a disk with so much room."""
    return lambda: resource.setrlimit(resource.RLIMIT_FSIZE, (size, size))


def error_of(text, status):
    """What standard error has beside a text that is printed whole."""
    return in_words(text) if status == 1 else b""


def not_printed(folder):
    """Where standard output takes too little: exit status 2, and one line that says why."""
    def must_fail(what, done, why):
        line = b"lepsaino: " + why + b"\n"
        check(what, (done.returncode, done.stderr) == (2, line), done)

    whole = b"not all could be written to standard output: "
    for what, arguments, text, _ in PRINTED:
        with open("/dev/full", "wb") as out:
            must_fail(f"{what}, /dev/full", run(folder, *arguments, stdout=out), whole + b"No space left on device")
        done = run(folder, *arguments, stdout=None, preexec_fn=lambda: os.close(1))
        must_fail(f"{what}, closed", done, b"standard output is closed")
        for room in (0, 2):
            for restored in (True, False):
                with open(Path(folder) / "out", "wb") as out:
                    done = run(folder, *arguments, stdout=out, preexec_fn=limit(room), restore_signals=restored)
                must_fail(f"{what}, room for {room} bytes", done, whole + b"File too large")
                wrote = (Path(folder) / "out").read_bytes()
                check(f"{what}, what {room} bytes hold", wrote == (text or HELP)[:room], wrote)


def no_work_room(folder):
    """Where no other file can be written, all is as ever."""
    cases = [*PRINTED, ("an error", ("none", *GOOD), b"", 2)]
    for what, arguments, text, status in cases:
        for where, options in (
            ("no room for files", dict(preexec_fn=limit(0), restore_signals=False)),
            ("no folder for files", dict(env=dict(os.environ, TMPDIR=str(Path(folder) / "missing")))),
        ):
            done = run(folder, *arguments, **options)
            error = b"none: No such file or directory\n" if status == 2 else error_of(text, status)
            printed = done.stdout.startswith(HELP) if text is None else done.stdout == text
            check(f"{what}, {where}", printed and (done.stderr, done.returncode) == (error, status), done)


def reader_leaves(folder):
    """A reader that leaves early is no error, whether or not the caller has SIGPIPE ignored."""
    for what, arguments, text, status in PRINTED:
        for restored in (True, False):
            ours, theirs = os.pipe()
            os.close(ours)
            done = run(folder, *arguments, stdout=theirs, restore_signals=restored)
            os.close(theirs)
            check(f"{what}, no reader", (done.stderr, done.returncode) == (error_of(text, status), status), done)
    done = run(folder, "-c", 'set -o pipefail; "$0" full 3000000 8192 0 | head -c 1', ROOT / "lepsaino", script="bash")
    check("head -c 1", (done.stdout, done.stderr, done.returncode) == (b"{", b"", 0), done)


def line_on(length, missing=0, current=0, types=0, ids=0, packed=0, moved=0):
    """The line on a copy."""
    counts = dict(length=length, missing=missing, current=current, types=types, ids=ids, packed=packed, moved=moved)
    return ("{" + ",".join(f'"{name}":{count}' for name, count in counts.items()) + "}\n").encode()


def all_damage():
    """A dump with every kind of damage, and its copy by hand: of five slots 0, 2 and 3 are kept, and two of them move."""
    dump, copy = Dump(2, 5).use(0, 1, 2, 3, 4), Dump(2, 5).use(0, 1, 2).at(3)
    dump.current += 8
    dump.entries[1] = entry(7, b"valve", kind=15)
    dump.slots[1][2] = 0
    dump.cut = 250
    copy.entries[1] = entry(7, b"valve", kind=15, flag=1)
    copy.slots[1:3] = dump.slots[2:4]
    return dump.bytes(">"), copy.bytes(">"), line_on(256, 1, 1, 1, 1, 1, 2)


# Of the sample the slots 1 and 0 are kept, in this order, and current goes behind them.
CUT_COPY = PUMP[:32] + b"\x88\0\0\x20" + PUMP[36:72] + PUMP[104:136] + PUMP[72:104] + bytes(32)
ALL, ALL_COPY, ALL_LINE = all_damage()
MENDED = [
    # the dump, the copy by hand, what is printed
    (PUMP, PUMP, line_on(168)),
    (PUMP + bytes(99), PUMP, line_on(168)),
    (FULL, FULL, line_on(65520)),
    (THREADS, THREADS, line_on(408)),
    (CUT, CUT_COPY, line_on(168, missing=1, packed=1, moved=2)),
    (ALL, ALL_COPY, ALL_LINE),
]


def place(folder, **files):
    """A folder of its own, with these files."""
    made = Path(tempfile.mkdtemp(dir=folder))
    for name, content in files.items():
        (made / name).write_bytes(content)
    return made


def state(folder):
    """What is in a folder: each name with its kind and permission bits, its number and its bytes."""
    def one(path):
        about = path.lstat()
        held = os.readlink(path) if path.is_symlink() else path.read_bytes() if path.is_file() else None
        return about.st_mode, about.st_ino, held
    return {path.name: one(path) for path in Path(folder).iterdir()}


def must_mend(what, done, path, others, copy=ALL_COPY, line=ALL_LINE, mode=None):
    """The copy is at the path, with these permission bits, and beside it are these other files and no more."""
    left = state(path.parent)
    kind, _, held = left.get(path.name, (0, 0, None))
    right = (done.stdout, done.stderr, done.returncode, held) == (line, b"", 0, copy)
    check(what, right and set(left) == {path.name, *others} and mode in (None, stat.S_IMODE(kind)), (done, left))


def mends(folder):
    """Copies compared with those by hand, then listed, then mended over themselves, which changes no byte."""
    for dump, copy, line in MENDED:
        what, here = f"{len(dump)} bytes mended", place(folder, dump=dump)
        must_mend(what, run(here, "mend", "dump", "copy"), here / "copy", ["dump"], copy, line)
        done = run(here, "copy", *GOOD)
        listed = listing(copy, Reading(3000000, 8192, 0), 1500000).encode()
        check(f"{what}, listed", (done.stdout, done.stderr, done.returncode) == (listed, b"", 0), done)
        must_mend(f"{what}, again", run(here, "mend", "copy", "copy"), here / "copy", ["dump"], copy, line_on(len(copy)))


def bound():
    """Root too is held to permission bits after that: it is a step before a command, and drops CAP_DAC_OVERRIDE."""
    ctypes.CDLL(None).prctl(24, 1, 0, 0, 0)


def blind():
    """The same for reading, which CAP_DAC_READ_SEARCH allows root too."""
    bound()
    ctypes.CDLL(None).prctl(24, 2, 0, 0, 0)


def mends_over(folder):
    """What is replaced keeps its permission bits, a new file has those of the umask; a link stays."""
    here = place(folder, dump=ALL)
    must_mend("over the dump", run(here, "mend", "dump", "dump"), here / "dump", [])
    for mode in (0o640, 0o604, 0o700):
        here = place(folder, dump=ALL, old=b"old")
        (here / "old").chmod(mode)
        os.link(here / "old", here / "first")
        must_mend(f"over {mode:o}", run(here, "mend", "dump", "old"), here / "old", ["dump", "first"], mode=mode)
        check("the old bytes by another name", (here / "first").read_bytes() == b"old", state(here))
    for mask in (0o022, 0o027, 0o177):
        here = place(folder, dump=ALL)
        done = run(here, "mend", "dump", "new", umask=mask, preexec_fn=bound)
        must_mend(f"umask {mask:o}", done, here / "new", ["dump"], mode=0o666 & ~mask)
    for name, others in (("old", []), ("new", ["old"])):
        here, there = place(folder, dump=ALL), place(folder, old=b"old")
        (here / "link").symlink_to(there / name)
        must_mend(f"by a link to {name}", run(here, "mend", "dump", "link"), there / name, others)
        left = state(here)
        check(f"the link to {name}", left["link"][2] == str(there / name) and len(left) == 2, left)


def mends_by_name(folder):
    """Names of any kind; a file named mend is listed by another name of it."""
    for name in ("a dump", "-f", "--", "a\nb\n", "mend", "*", os.fsdecode(b"a \xff\xfe")):
        here, there = place(folder, **{name: ALL}), place(folder)
        must_mend(f"from {name!r}", run(here, "mend", name, there / "copy"), there / "copy", [])
        must_mend(f"to {name!r}", run(there, "mend", here / name, name), there / name, ["copy"])
    here = place(folder, mend=PUMP)
    with open(here / "mend", "rb") as dump:
        done = run(here, "mend", "/dev/stdin", "copy", stdin=dump)
    must_mend("by standard input", done, here / "copy", ["mend"], PUMP, line_on(168))
    done = [run(here, name, *GOOD) for name in ("./mend", "mend")]
    right = [(one.stdout, one.stderr, one.returncode) for one in done] == [(LINES, b"", 0), (b"", MEND_USAGE, 2)]
    check("a file named mend", right, done)


def takes_any_bytes(folder):
    """A name that is not UTF-8 is taken and told as any other, and nothing stays of how it goes to the program; the second is above the last character."""
    for odd in map(os.fsdecode, (b"\xe4 \xff", b"\xf4\x90\x80\x80")):
        here, room = place(folder, **{f"dump{odd}": PUMP, f"names{odd}": NAMES}), place(folder)
        for what, words, right in (
            ("listed", (f"dump{odd}", *GOOD), (LINES, b"", 0)),
            ("listed with names", (f"dump{odd}", *GOOD, f"names{odd}"), (NAMED_LINES, b"", 0)),
            ("listed by a whole path", (here / f"dump{odd}", *GOOD), (LINES, b"", 0)),
            ("that is not there", (f"none{odd}", *GOOD), (b"", os.fsencode(f"none{odd}: No such file or directory\n"), 2)),
            ("of names that are not there", (f"dump{odd}", *GOOD, f"none{odd}"), (b"", os.fsencode(f"none{odd}: No such file or directory\n"), 2)),
            ("that is too long", ("\udcff" * 4097, *GOOD), (b"", b"FILE's name is empty, or longer than 4096 bytes\n", 2)),
        ):
            done = run(here, *words, env=dict(os.environ, TMPDIR=str(room)))
            check(f"a name of any bytes {what}", (done.stdout, done.stderr, done.returncode) == right and not state(room), (done, state(room)))


def must_leave(what, here, done, error=None, out=b"", status=2):
    """An error with one line, or a refusal, which has one line, too; `here` is a folder and what was in it."""
    right = (done.stdout or b"", done.returncode, done.stderr.count(b"\n")) == (out, status, 1)
    error = in_words(out) if error is None and status == 1 else error
    check(what, right and error in (None, done.stderr), done)
    check(f"{what}, what is left", state(here[0]) == here[1], state(here[0]))


def mends_nothing(folder):
    """Refusals, and errors on the way from the dump to the copy: all is as it was, with no file more."""
    here = place(folder, pump=PUMP, short=PUMP[:47], cut=CUT[:71], old=b"old")
    was = here, state(here)
    for to in ("old", "new"):
        must_leave(f"a short dump to {to}", was, run(here, "mend", "short", to), out=b"1 0\n", status=1)
        must_leave(f"a cut registry to {to}", was, run(here, "mend", "cut", to), out=b"26 1\n", status=1)
        must_leave(f"no dump to {to}", was, run(here, "mend", "none", to), b"none: No such file or directory\n")
        must_leave(f"a folder to {to}", was, run(here, "mend", ".", to), b".: Is a directory\n")
        must_leave(f"a name of two lines to {to}", was, run(here, "mend", "no\nne", to))
        must_leave(f"no name to {to}", was, run(here, "mend", "", to))
        for room in (0, 100):
            done = run(here, "mend", "pump", to, preexec_fn=limit(room), restore_signals=False)
            must_leave(f"{room} bytes of room, {to}", was, done, b"COPY cannot be written: File too large\n")
        done = run(here, "mend", "pump", to, stdout=None, preexec_fn=lambda: os.close(1))
        must_leave(f"closed output, {to}", was, done, b"lepsaino: standard output is closed\n")
    for given in ((), ("pump",), ("pump", "old", "new"), GOOD):
        must_leave(f"{len(given)} arguments", was, run(here, "mend", *given), MEND_USAGE)


def mends_no_other(folder):
    """What is no regular file is not replaced, nor is anything where the copy cannot be made."""
    here = place(folder, pump=PUMP, old=b"old")
    (here / "sub").mkdir()
    os.mkfifo(here / "pipe")
    put_device(here / "device")
    for name, to in (("piped", "pipe"), ("lost", "none/copy"), ("turns", "turns"), ("to device", "device")):
        (here / name).symlink_to(to)
    was = here, state(here)
    for to in ("sub", "."):
        must_leave(f"to {to}", was, run(here, "mend", "pump", to), b"lepsaino: COPY cannot be written: it is a folder\n")
    for to in ("sub/", "old/", "new/", "none/copy", "lost", "turns", "pipe", "piped", "device", "to device", "/dev/stdout", "/proc/copy",
               "", "n" * 256, "n/" * 2500):
        must_leave(f"to {to[:20]!r}", was, run(here, "mend", "pump", to))
    with open(here / "gone", "wb") as gone:
        (here / "gone").unlink()
        done = run(here, "mend", "pump", f"/dev/fd/{gone.fileno()}", pass_fds=[gone.fileno()])
        must_leave("to a file that has lost its name", was, done)
    mends_nothing_protected(here)


def put_device(path):
    """A device of our own, since a wrong script run by root would replace the machine's; where we may make none, a socket."""
    try:
        os.mknod(path, stat.S_IFCHR | 0o666, os.makedev(1, 3))
    except PermissionError:
        with socket.socket(socket.AF_UNIX) as made:
            made.bind(str(path))


def mends_nothing_protected(here):
    """A file or a folder that may not be written is left alone."""
    for protected, to in (("old", "old"), (".", "old"), (".", "new")):
        mode = (here / protected).stat().st_mode
        (here / protected).chmod(0o555)
        was = here, state(here)
        if subprocess.run(["test", "-w", here / protected], preexec_fn=bound).returncode:
            must_leave(f"{protected} protected, to {to}", was, run(here, "mend", "pump", to, preexec_fn=bound))
        (here / protected).chmod(mode)


def mended_not_printed(folder):
    """The copy is there and whole where only its line could not be printed, or nobody reads it."""
    here = place(folder, dump=ALL)
    with open("/dev/full", "wb") as out:
        done = run(here, "mend", "dump", "copy", stdout=out)
    left = state(here)
    right = (done.returncode, done.stderr.count(b"\n"), left.get("copy", [None])[-1]) == (2, 1, ALL_COPY)
    check("a copy, /dev/full", right and len(left) == 2, (done, left))
    ours, theirs = os.pipe()
    os.close(ours)
    done = run(here, "mend", "dump", "dump", stdout=theirs)
    os.close(theirs)
    check("a copy, no reader", (done.stderr, done.returncode, (here / "dump").read_bytes()) == (b"", 0, ALL_COPY), done)


MADE = [
    # a list, its name file by hand
    (b"", b""),
    (b"5 start\nthread 0x20002000 valve\n", NAMES),
    (b"thread 0x20002000 valve\n5 start", record(2, 0x20002000, b"valve") + record(1, 5, b"start")),
    (b"5 start\r\nthread 536879104 valve\r\n", NAMES),
    (b"# 5 none\n\n5 start\n\r\n#\nthread 0x20002000 valve\n\n", NAMES),
    (b"5 \nthread 6 \r\n", record(1, 5) + record(2, 6)),
    (b"5 a\nthread 5 b\n", record(1, 5, b"a") + record(2, 5, b"b")),
    (b"1 # a\n2  b \n3 thread 4 c\n", record(1, 1, b"# a") + record(1, 2, b" b ") + record(1, 3, b"thread 4 c")),
    (b"4294967295 most\n0xfffffffe less\nthread 0 least\n", record(1, HALF, b"most") + record(1, HALF - 1, b"less") + record(2, 0, b"least")),
    (b"007 a\n0x" + b"0" * 5000 + b"aB b\nthread 0x0 c\n", record(1, 7, b"a") + record(1, 0xAB, b"b") + record(2, 0, b"c")),
    (b"5 \0\xff\xc3\xa4\t\r\x0b\x0c\x85\r\r\n6 b\n", record(1, 5, b"\0\xff\xc3\xa4\t\r\x0b\x0c\x85\r") + record(1, 6, b"b")),
    (b"5 " + b"x" * 65528 + b"\n# more\n", record(1, 5, b"x" * 65528)),
    (b"".join(b"%d \n" % number for number in range(1, 8193)), b"".join(record(1, number) for number in range(1, 8193))),
]
BAD_LINE = "neither ID NAME nor thread POINTER NAME"
NOT_MADE = [
    # a list, what standard error says of it
    *((line, f"line 1: {BAD_LINE}") for line in (
        b"5\n", b"5\r\n", b" 5 a\n", b"five a\n", b"-1 a\n", b"+1 a\n", b"5_0 a\n", b"0x a\n", b"0Xa a\n", b"ab a\n", b"5\ta\n", b" \n", b"a", b"\xef\xbb\xbf5 a\n",
        "\u0663 a\n".encode(), b"thread\n", b"thread 5\n", b"thread  5 a\n", b"thread a b\n", b"Thread 5 a\n", b"thread\t5 a\n", b"event 5 a\n")),
    *((line, "line 1: the number is above 4294967295") for line in (b"4294967296 a\n", b"thread 0x100000000 a\n", b"9" * 5000 + b" a\n")),
    *((line, "line 1: no event has the id 0") for line in (b"0 a\n", b"000 a\n", b"0x0 a\n")),
    (b"# a\n\n5 a\nb\n6 c\n", f"line 4: {BAD_LINE}"),
    (b"5 a\n\n6 b\n0x5 a\n", "line 4: the event 5 has a name by line 1 already, and only the first would be read"),
    (b"7 a\nthread 32 a\nthread 0x20 b\n", "line 3: the thread 0x20 has a name by line 2 already, and only the first would be read"),
    (b"5 " + b"x" * 65529, "line 1: the name file would have more than 65536 bytes"),
    (b"#\n6 a\n5 " + b"x" * 65520, "line 3: the name file would have more than 65536 bytes"),
    (b"".join(b"%d \n" % number for number in range(1, 8194)), "line 8193: the name file would have more than 65536 bytes"),
]


def make_names(folder, *arguments, **options):
    return run(folder, *arguments, script=ROOT / "make-names", **options)


def must_make(what, done, path, others, names=NAMES, mode=None):
    must_mend(f"{what}, a name file", done, path, others, names, b"", mode)


def makes_names(folder):
    """Name files from lists, by a file and by standard input, compared with those by hand; a list that breaks a rule leaves all as it was."""
    for text, names in MADE:
        here = place(folder, list=text, old=b"old")
        must_make(f"{text[:40]}", make_names(here, "list", "old"), here / "old", ["list"], names)
        must_make(f"{text[:40]} by a pipe", make_names(here, "-", "new", input=text), here / "new", ["list", "old"], names)
        check(f"{text[:40]}, listed", run(here, "/dev/stdin", *GOOD, "new", input=PUMP).stdout == named(PUMP, names), names[:40])
    for text, said in NOT_MADE:
        here = place(folder, list=text, old=b"old")
        was = here, state(here)
        for to in ("old", "new"):
            must_leave(f"{text[:40]} to {to}", was, make_names(here, "list", to), f"make-names: {said}\n".encode(), status=1)


def makes_names_over(folder):
    """What is replaced keeps its permission bits, a new file has those of the umask; a link stays; the list itself may be replaced."""
    text = b"5 start\nthread 0x20002000 valve\n"
    here = place(folder, list=text)
    must_make("over the list", make_names(here, "list", "list"), here / "list", [])
    for mode in (0o640, 0o604, 0o700):
        here = place(folder, list=text, old=b"old")
        (here / "old").chmod(mode)
        must_make(f"over {mode:o}", make_names(here, "list", "old"), here / "old", ["list"], mode=mode)
    for mask in (0o022, 0o027, 0o177):
        here = place(folder, list=text)
        must_make(f"umask {mask:o}", make_names(here, "list", "new", umask=mask), here / "new", ["list"], mode=0o666 & ~mask)
    for name, others in (("old", []), ("new", ["old"])):
        here, there = place(folder, list=text), place(folder, old=b"old")
        (here / "link").symlink_to(there / name)
        must_make(f"by a link to {name}", make_names(here, "list", "link"), there / name, others)
        check(f"the link to {name}", os.readlink(here / "link") == str(there / name), state(here))
    for name in ("a name", "-f", "--", "a\nb\n", "*"):
        here, there = place(folder, **{name: text}), place(folder)
        must_make(f"{name!r}", make_names(here, name, there / name), there / name, [])


def makes_no_names(folder):
    """Errors in use and on the way from the list to the name file: one line, and all is as it was, with no file more."""
    here = place(folder, list=b"5 start\n", old=b"old")
    (here / "sub").mkdir()
    os.mkfifo(here / "pipe")
    put_device(here / "device")
    for name, to in (("piped", "pipe"), ("lost", "none/names"), ("turns", "turns"), ("to device", "device")):
        (here / name).symlink_to(to)
    was = here, state(here)
    for given in ((), ("list",), ("list", "old", "new")):
        must_leave(f"make-names, {len(given)} arguments", was, make_names(here, *given), b"usage: make-names LIST NAMES; make-names --help says more\n")
    for name, said in (("none", b"No such file or directory"), (".", b"Is a directory"), ("", None), ("no\nne", None)):
        must_leave(f"make-names, a list in {name!r}", was, make_names(here, name, "new"), said and b"make-names: LIST cannot be read: " + said + b"\n")
    done = make_names(here, "-", "new", preexec_fn=lambda: os.close(0))
    must_leave("make-names, a closed input", was, done, b"make-names: LIST cannot be read: Bad file descriptor\n")
    for to in ("sub", ".", "sub/", "old/", "new/", "none/names", "lost", "turns", "pipe", "piped", "device", "to device", "/dev/stdout", "/proc/names",
               "", "n" * 256):
        must_leave(f"make-names, to {to[:20]!r}", was, make_names(here, "list", to))
    with open(here / "gone", "wb") as gone:
        (here / "gone").unlink()
        done = make_names(here, "list", f"/dev/fd/{gone.fileno()}", pass_fds=[gone.fileno()])
        must_leave("make-names, to a file that has lost its name", was, done)
    for to in ("old", "new"):
        done = make_names(here, "list", to, preexec_fn=limit(2))
        must_leave(f"make-names, no room for {to}", was, done, b"make-names: NAMES cannot be written: File too large\n")
    makes_no_protected_names(here)


def makes_no_protected_names(here):
    """A file or a folder that may not be written is left alone."""
    for protected, to in (("old", "old"), (".", "old"), (".", "new")):
        mode = (here / protected).stat().st_mode
        (here / protected).chmod(0o555)
        was = here, state(here)
        if subprocess.run(["test", "-w", here / protected], preexec_fn=bound).returncode:
            must_leave(f"make-names, {protected} protected, to {to}", was, make_names(here, "list", to, preexec_fn=bound))
        (here / protected).chmod(mode)


def make_names_help(folder):
    """Its use, both arguments, every exit status; the example is run, and so is each form of a line."""
    here = place(folder)
    (here / "make-names").symlink_to(ROOT / "make-names")
    for option in ("--help", "-h"):
        done = make_names(here, option)
        lines = done.stdout.decode().splitlines()
        right = lines[:2] == ["usage: make-names LIST NAMES", "       make-names --help"]
        right &= all(any(line.startswith(f"  {word}  ") for line in lines) for word in ("LIST ", "NAMES", "ID NAME", "thread POINTER NAME", 0, 1, 2))
        check(f"make-names {option}", right and (done.stderr, done.returncode) == (b"", 0), done)
    subprocess.run(["bash", "-c", lines[-1]], cwd=here)
    check("the example of make-names", (here / "pump.names").read_bytes() == NAMES, state(here))
    with open("/dev/full", "wb") as out:
        done = make_names(here, "--help", stdout=out)
    said = b"make-names: not all could be written to standard output: No space left on device\n"
    check("make-names --help, /dev/full", (done.stderr, done.returncode) == (said, 2), done)


def help_text(folder):
    """All forms of use, every argument and exit status, the first command of the README, and files that are there; nothing is built for it."""
    example = next(line for line in (ROOT / "README.md").read_text().splitlines() if line.startswith("$ ./lepsaino "))[2:]
    for option in ("--help", "-h"):
        done = run(folder, option)
        lines = done.stdout.decode().splitlines()
        right = done.stdout.startswith(HELP)
        right &= example.strip() in [line.strip() for line in lines]
        right &= all(any(line.startswith(f"  {status}  ") for line in lines) for status in (0, 1, 2, "FILE  ", "RATE  ", "UNIT  ", "SERIAL", "NAMES ", "COPY  "))
        right &= all((ROOT / name).is_file() for name in re.findall(r"docs/\w+\.md", done.stdout.decode())) and b"docs/RULES.md" in done.stdout
        check(option, right and (done.stderr, done.returncode) == (b"", 0), done)
    one = StandIn(folder)
    one.go()
    done = [one.run(option) for option in ("--help", "--version")]
    check("--help and --version build nothing", one.calls() == 0, one.calls())
    version = re.search(r"^#define LEPSAINO_VERSION (\d+)$", HEADER, re.M)[1]
    right = (done[1].stdout, done[1].stderr, done[1].returncode) == (f"lepsaino {version}\n".encode(), b"", 0)
    check("--version", right, done[1])


def recipes(folder):
    """Every command of docs/RECIPES.md gives what is shown there."""
    faults.extend(faults_of("docs/RECIPES.md", working_folder(tempfile.mkdtemp(dir=folder))))


def keeps_cells(folder):
    """As cells of a spreadsheet: an apostrophe stands before every key and every name, and before microseconds of more than 15 digits."""
    def line(key, us, name):
        bare = [number if number < 2 ** 53 else str(number) for number in (key, us)]
        return json.dumps(dict(key=bare[0], ticks=0, us=bare[1], id=5, ptr=7, by="thread", name=name, gone=False, field=16, info=[1, 2, 3, 4])) + "\n"

    events = [(7, 0, "=1+1"), (2 ** 53 - 1, 10 ** 15 - 1, "@x"), (2 ** 53, 10 ** 15, "-1"), (WHOLE, 2 ** 53, "+1"), (8, 1, 'a,"b\n'), (9, 1, "'"), (9, 1, ""), (9, 1, None)]
    lines = "".join(line(*event) for event in events)
    done = subprocess.run(["jq", "-rnf", ROOT / "examples/csv.jq"], input=lines, capture_output=True, text=True)
    rows = [[f"'{key}", "0", f"'{us}" if us >= 10 ** 15 else str(us), "5", "7", "thread", "" if name is None else f"'{name}", "false", "16", "1", "2", "3", "4"]
            for key, us, name in events]
    check("cells", list(csv.reader(io.StringIO(done.stdout)))[1:] == rows and done.stderr == "", done)


# A stand-in for rt, called in the program's crate: it counts its calls and waits for a file before it builds, or fails.
RT = """#!/bin/sh
cd ../..
echo call >>calls
tries=0
while [ ! -e go ] && [ $tries -lt 400 ]; do sleep 0.05; tries=$((tries + 1)); done
cat >/dev/null
[ ! -e bad ] || exit 1
mkdir -p crates/lepsaino/out && cp program crates/lepsaino/out/lepsaino
"""
BUILT = "crates/lepsaino/out/lepsaino"
PROGRAM = "#!/bin/sh\nprintf '{}\\n'\n"
WAITS = b"lepsaino: another use is building the program; this one waits\n"


def heed():
    """A step before a command: the signals that stop it are not ignored, as they are in what a shell starts with &."""
    for number in (signal.SIGINT, signal.SIGTERM, signal.SIGHUP):
        signal.signal(number, signal.SIG_DFL)


class StandIn:
    """A root with the script and stand-ins for the toolchain and the program."""

    def __init__(self, folder):
        self.root = Path(tempfile.mkdtemp(dir=folder))
        (self.root / "crates/lepsaino").mkdir(parents=True)
        (self.root / "include").mkdir()
        for name in ("lepsaino", "crates.txt", "include/lepsaino.h"):
            shutil.copy2(ROOT / name, self.root / name)
        self.put("kit/bin/rt", RT)
        self.put("program", PROGRAM)
        self.env = dict(os.environ, PATH=f"{self.root}/kit/bin:{os.environ['PATH']}")

    def put(self, name, text):
        path = self.root / name
        path.parent.mkdir(parents=True, exist_ok=True)
        path.write_text(text)
        path.chmod(0o755)

    def calls(self):
        path = self.root / "calls"
        return path.read_text().count("call") if path.exists() else 0

    def start(self, *arguments):
        """A use in a process group of its own, which a signal ends even where these checks run with signals ignored."""
        pipes = dict(stdin=subprocess.DEVNULL, stdout=subprocess.PIPE, stderr=subprocess.PIPE)
        own = dict(env=self.env, cwd=self.root, start_new_session=True, preexec_fn=heed)
        return subprocess.Popen([self.root / "lepsaino", *arguments], **own, **pipes)

    def building(self, *arguments):
        """A first use that builds and goes on when there is a file `go`."""
        first = self.start(*arguments)
        for _ in range(400):
            if self.calls():
                break
            time.sleep(0.05)
        return first

    def waiting(self):
        """A use beside it, and the first line that it says."""
        second = self.start()
        return second, second.stderr.readline()

    def go(self):
        (self.root / "go").touch()

    def run(self, *arguments, **options):
        return run(self.root, *arguments, script=self.root / "lepsaino", env=self.env, **options)


def builds(folder):
    """Two first uses at the same moment build once; a build that failed or was killed is in nobody's way."""
    def is_listing(process):
        return (process.communicate(timeout=60)[0], process.returncode) == (b"{}\n", 0)

    two = StandIn(folder)
    first = two.building()
    second, said = two.waiting()
    two.go()
    check("two first uses", is_listing(first) and is_listing(second) and said == WAITS and two.calls() == 1, (said, two.calls()))

    failed = StandIn(folder)
    (failed.root / "bad").touch()
    first = failed.building()
    second, said = failed.waiting()
    failed.go()
    ends = [(process.communicate(timeout=60)[0], process.returncode) for process in (first, second)]
    check("two builds that fail", ends == [(b"", 2)] * 2 and said == WAITS and failed.calls() == 2, (ends, said, failed.calls()))
    (failed.root / "bad").unlink()
    done = failed.run()
    check("after a build that failed", (done.stdout, done.returncode) == (b"{}\n", 0) and WAITS not in done.stderr, done)

    killed = StandIn(folder)
    first = killed.building()
    os.killpg(first.pid, signal.SIGKILL)
    first.communicate(timeout=60)
    killed.go()
    done = killed.run()
    check("after a killed build", (done.stdout, done.returncode) == (b"{}\n", 0) and WAITS not in done.stderr, done)

    orphan = StandIn(folder)
    orphan.building().kill()
    second, said = orphan.waiting()
    orphan.go()
    check("a script killed without its build", is_listing(second) and said == WAITS, said)

    fed = StandIn(folder)
    fed.go()
    fed.put("program", "#!/bin/sh\ncat\n")
    done = fed.run(input=b"{by standard input}\n")
    check("the build leaves standard input", (done.stdout, done.returncode) == (b"{by standard input}\n", 0), done)


def program_fails(folder):
    """Nothing is printed where the program, or what keeps its text, fails on the way; a shell with job control keeps it too."""
    one = StandIn(folder)
    one.go()
    one.run()
    for failing in ("exit 3", "echo no >&2", "kill -SEGV $$"):
        one.put(BUILT, f"#!/bin/sh\nprintf '{{half'\n{failing}\n")
        done = one.run()
        right = (done.stdout, done.returncode, done.stderr.count(b"\n")) == (b"", 2, 1)
        check(f"a program that ends by {failing}", right, done)
    one.put(BUILT, PROGRAM)
    one.put("kit/bin/head", "#!/bin/sh\nexit 1\n")
    done = one.run()
    right = (done.stdout, done.returncode, done.stderr.count(b"\n")) == (b"", 2, 1)
    check("a text that cannot be kept", right, done)
    done = run(folder, "full", *GOOD, "names", env=dict(os.environ, SHELLOPTS="monitor"))
    check("with job control", (done.stdout, done.stderr, done.returncode) == (LONG_LINES, b"", 0), (len(done.stdout), done.stderr, done.returncode))


def mend_fails(folder):
    """A program that fails with half a copy, or claims one that is not there, leaves what was there."""
    one = StandIn(folder)
    one.go()
    one.run()
    here = place(folder, old=b"old")
    was = here, state(here)
    failures = [(failing, 2, b"") for failing in ("exit 3", "echo no >&2", "kill -SEGV $$", "rm $3; echo {}")]
    for failing, status, out in (*failures, ("echo 1 0", 1, b"1 0\n")):
        one.put(BUILT, f"#!/bin/sh\nprintf half >$3\n{failing}\n")
        for to in ("old", "new"):
            must_leave(f"mend, {failing}, {to}", was, one.run("mend", "dump", here / to), out=out, status=status)


def mend_stopped(folder):
    """A signal to all of us leaves what was there, but for a hangup: then the copy is carried through."""
    one = StandIn(folder)
    one.go()
    one.run()
    os.mkfifo(one.root / "wait")
    gate = os.open(one.root / "wait", os.O_RDWR)
    one.put(BUILT, "#!/bin/sh\nprintf whole >$3\necho call >>calls\nread line <wait\necho {}\n")
    for number, held in ((signal.SIGINT, b"old"), (signal.SIGTERM, b"old"), (signal.SIGHUP, b"whole")):
        here = place(folder, old=b"old")
        (one.root / "calls").unlink()
        process = one.building("mend", "dump", here / "old")
        os.killpg(process.pid, number)
        if number == signal.SIGHUP:
            os.write(gate, b"go on\n")
        process.communicate(timeout=60)
        left = {name: about[2] for name, about in state(here).items()}
        right = left == {"old": held} and (process.returncode == 0) == (number == signal.SIGHUP)
        check(f"mend, {number.name}", right, (process.returncode, left))
    os.close(gate)


with tempfile.TemporaryDirectory() as folder:
    run(folder, timeout=None)  # builds the program where it is not built yet, and says so
    for name, content in (("pump", PUMP), ("full", FULL), ("short", PUMP[:47]), ("names", LONG_NAMES)):
        (Path(folder) / name).write_bytes(content)
    for part in (plain, names_events, names_by_standard_input, says_refusals, by_standard_input, recipes, keeps_cells, not_printed, no_work_room,
                 reader_leaves, mends, mends_over, mends_by_name, takes_any_bytes, mends_nothing, mends_no_other, mended_not_printed, makes_names, makes_names_over,
                 makes_no_names, make_names_help, help_text, builds, program_fails, mend_fails, mend_stopped):
        part(folder)
print("\n".join(faults), end="\n" if faults else "", file=sys.stderr)
sys.exit(1 if faults else 0)

"""The C interface from outside: the short differential run, the C examples compiled and run, and the header read as C++. Silent where all is well."""
import concurrent.futures
import pathlib
import subprocess
import sys
import tempfile

sys.dont_write_bytecode = True

from corpus_dumps import checked_dumps

ROOT = pathlib.Path(__file__).resolve().parent.parent
LIBRARY = ROOT / "target" / "native" / "liblepsaino_c.a"
SAMPLE = ROOT / "crates" / "lepsaino" / "data" / "pump.dump"
# The whole case of docs/RULES.md.
LINES = (ROOT / "crates" / "lepsaino" / "stdout").read_bytes()
STRICT = ["-Wall", "-Wextra", "-pedantic", "-Werror", "-I", str(ROOT / "include")]


def run(*command, given=b""):
    return subprocess.run([str(word) for word in command], input=given, capture_output=True)


def must(what, *command):
    done = run(*command)
    if done.returncode != 0:
        sys.exit(f"interface: {what} failed\n{done.stdout.decode()}{done.stderr.decode()}")


def compiled(folder, name):
    program = folder / name
    must(f"compiling {name}.c", "cc", "-std=c99", "-O2", *STRICT, ROOT / "examples" / f"{name}.c", LIBRARY, "-o", program)
    return program


def example_gives(program, words, status, stdout, title="no input", given=b""):
    done = run(program, *words, given=given)
    if (done.returncode, done.stdout) != (status, stdout):
        sys.exit(f"interface: the example {program.name} on {words}, {title}, gave {done.returncode} and {done.stdout!r}")


def lists(program, cut):
    example_gives(program, [SAMPLE, 3000000, 8192, 0], 0, LINES)
    example_gives(program, [SAMPLE, 0, 8192, 0], 1, b"14 0\n")
    # The sample's registry ends at 72, its slots at 168.
    for length, refusal in ((47, b"1 0\n"), (48, b"26 24\n"), (72, b"26 96\n"), (167, b"26 1\n")):
        cut.write_bytes(SAMPLE.read_bytes()[:length])
        example_gives(program, [cut, 3000000, 8192, 0], 1, refusal)
    example_gives(program, [SAMPLE, 3000000, 8192], 2, b"")


def records(program):
    """The events that are recorded are those of the whole case."""
    example_gives(program, [], 0, LINES)
    must("seeing that not all could be written", "sh", "-c", '"$0" >/dev/full; test $? = 2', program)


def has_room(folder):
    """The header's rooms and sizes, by sentences of docs/RULES.md: a line's longest parts, the most events, the parts of a buffer."""
    longest = len('{"key":"","ticks":,"us":"","id":,"ptr":,"by":"thread","name":"","gone":false,"field":,"info":[,,,]}\n') + 20 + 13 + 19 + 7 * 10 + 6 * 64
    tests = [f"LEPSAINO_LINE_ROOM >= {longest}", f"LEPSAINO_LISTING_ROOM == {(65536 - 48) // 32} * LEPSAINO_LINE_ROOM",
             f"LEPSAINO_NUMBER_ROOM == {len(str(2 ** 64 - 1)) + 2}", "LEPSAINO_BUFFER_SIZE(8, 1, 3) == 168", "LEPSAINO_BUFFER_SIZE(4, 0, 1) == 80",
             "LEPSAINO_BUFFER_SIZE(64, 2, 2041) == 65520", "LEPSAINO_DUMP_MOST == 65536"]
    source = folder / "room.c"
    source.write_text('#include "lepsaino.h"\n' + "".join(f"_Static_assert({each}, \"\");\n" for each in tests))
    must("the header's rooms and sizes", "cc", "-std=c11", "-fsyntax-only", *STRICT, source)


def checks_in_pieces(program):
    """However a dump of the corpus is cut, the example prints what the peer prints for the whole."""
    def both_ways(seed, dump):
        title, given, reply = dump
        status = 0 if reply.startswith((b"big ", b"little ")) else 1
        for words in ([], [seed]):
            example_gives(program, words, status, reply, title, given)

    lengths = [(f"{length} zeros", bytes(length), reply) for length, reply in ((0, b"1 0\n"), (65537, b"2 0\n"), (4000000, b"2 0\n"))]
    dumps = [*checked_dumps(), *lengths]
    with concurrent.futures.ThreadPoolExecutor(2) as workers:
        list(workers.map(both_ways, range(len(dumps)), dumps))
    for words in (["x"], [1, 2]):
        example_gives(program, words, 2, b"")
    for ends in ("</", "</dev/null >/dev/full"):
        must(f"seeing an error of {ends}", "sh", "-c", f'"$0" {ends}; test $? = 2', program)


def main():
    must("the short differential run", ROOT / "peer" / "run", "--short")
    must("reading the header as C++", "c++", "-std=c++11", "-fsyntax-only", "-x", "c++", *STRICT, ROOT / "include" / "lepsaino.h")
    with tempfile.TemporaryDirectory() as name:
        folder = pathlib.Path(name)
        has_room(folder)
        lists(compiled(folder, "list"), folder / "cut.dump")
        records(compiled(folder, "record"))
        checks_in_pieces(compiled(folder, "pieces"))


main()

"""The page's parts in node: the reader of lines, the module at two levels, the loader, the search, and the page as one file. Silent where all is well."""
import os
import pathlib
import shutil
import subprocess
import sys

ROOT = pathlib.Path(__file__).resolve().parent.parent
FOLDER = ROOT / "target" / "page"
TESTS = ROOT / "page" / "tests"
STRICT_TYPES = ["--noEmit", "--strict", "--target", "es2022", "--lib", "es2022,dom", "--module", "nodenext", "--moduleResolution", "nodenext"]


def must(what, *command, **more):
    done = subprocess.run([str(word) for word in command], capture_output=True, text=True, **more)
    if done.returncode != 0:
        sys.exit(f"page: {what} failed\n{done.stdout}{done.stderr}")


def main():
    must("building the page", ROOT / "page" / "build", FOLDER)
    must("building the module again", ROOT / "peer" / "build-module", FOLDER / "again.wasm")
    if (FOLDER / "again.wasm").read_bytes() != (FOLDER / "lepsaino.wasm").read_bytes():
        sys.exit("page: the same library makes two modules that differ")
    must("building the module at level 0", ROOT / "peer" / "build-module", FOLDER / "lepsaino-O0.wasm", 0)
    # Where TypeScript is at hand, what an editor makes of the types.
    if shutil.which("tsc"):
        must("checking the types", "tsc", *STRICT_TYPES, TESTS / "types.test.mts")
    tests = sorted(TESTS.glob("*.test.mjs"))
    must("a test in node", "node", "--test", *tests, env={**os.environ, "LEPSAINO_BUILT": str(FOLDER)})


main()

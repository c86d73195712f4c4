"""The peer's own tests, and its corpus: made anew from the fixed seed, it must be the files that are kept. With --write they are written."""
import os
import pathlib
import shutil
import subprocess
import sys
import tempfile

ROOT = pathlib.Path(__file__).resolve().parent.parent
TARGET = ROOT / "target" / "peer"
KEPT = {"cases": "crates/corpus/data/cases", "stdout": "crates/corpus/stdout", "keys": "peer/keys"}


def cargo(*words):
    command = ["cargo", *words, "--quiet", "--offline", "--locked", "--manifest-path", str(ROOT / "peer" / "Cargo.toml")]
    done = subprocess.run(command, env={**os.environ, "CARGO_TARGET_DIR": str(TARGET)}, capture_output=True, text=True)
    if done.returncode != 0:
        sys.exit(f"corpus: {' '.join(command[:2])} failed\n{done.stdout}{done.stderr}")


def made(folder):
    done = subprocess.run([str(TARGET / "release" / "corpus"), folder], capture_output=True, text=True)
    if done.returncode != 0:
        sys.exit(f"corpus: the peer could not make it\n{done.stdout}{done.stderr}")
    return done.stdout


def main(words):
    if words not in ([], ["--write"]):
        sys.exit("usage: corpus.py [--write]")
    cargo("test")
    cargo("build", "--release")
    with tempfile.TemporaryDirectory() as folder:
        table = made(folder)
        if words == ["--write"]:
            for name, path in KEPT.items():
                shutil.copyfile(pathlib.Path(folder) / name, ROOT / path)
            print(table, end="")
            return
        other = [path for name, path in KEPT.items() if (pathlib.Path(folder) / name).read_bytes() != (ROOT / path).read_bytes()]
    if other:
        sys.exit(f"corpus: the peer makes other files than those kept: {', '.join(other)}")


main(sys.argv[1:])

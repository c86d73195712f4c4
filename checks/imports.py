#!/usr/bin/env python3
"""Says which names a file of Rattle or antt brings in and does not use, or brings in twice."""
import re
import sys
from pathlib import Path

ROOT = Path(__file__).resolve().parent.parent / "crates"
# The parts of a crate that are written; rt keeps its own beside them.
PARTS = ("src", "specs", "proofs")
# The methods of the traits of std that are called on what has them.
METHODS = {"Read": r"read\w*", "Write": r"(?:write\w*|flush)", "Env": r"(?:arg|var\w*)"}
IMPORT = re.compile(r"^(ghost use|pub use|use) ([^;{\n]*(?:\{[^;}]*\})?[^;\n]*?);?$", re.M)


def names(line):
    """The names that an import binds."""
    group = re.match(r"[^{]*\{(.*)\}$", line, re.S)
    parts = group[1].split(",") if group else [line]
    for part in filter(None, map(str.strip, parts)):
        renamed = re.match(r".*\bas (\S+)$", part)
        yield renamed[1] if renamed else re.split(r"::" if group else r"\.|::", part)[-1]


def used(name, code):
    """A mixfix name is used by its symbols, a trait of std by its methods, any other by itself."""
    if name in METHODS and re.search(rf"\.{METHODS[name]}\(", code):
        return True
    symbols = [part for part in name.split("◌") if part]
    edge = r"[\w·′'→\-?]" if re.match(r"[\w]", symbols[0]) else r"[^\s(){},;.]"
    return all(re.search(rf"(?<!{edge}){re.escape(symbol)}(?!{edge})", code) for symbol in symbols)


faults = []
for path in sorted(p for part in PARTS for kind in ("*.antt", "*.rt") for p in ROOT.glob(f"*/{part}/**/{kind}")):
    text = re.sub(r"^\s*(--|//).*$", "", path.read_text(), flags=re.M)
    imports = [match for match in IMPORT.finditer(text) if match[1] != "pub use"]
    code = IMPORT.sub("", text)
    seen = set()
    for match in imports:
        for name in names(match[2]):
            if not used(name, code):
                faults.append(f"{path.relative_to(ROOT.parent)}: {name} is not used")
            # A function and what its contract says may have one name.
            elif (match[1], name) in seen:
                faults.append(f"{path.relative_to(ROOT.parent)}: {name} is brought in twice")
            seen.add((match[1], name))
print("\n".join(faults), end="\n" if faults else "")
sys.exit(1 if faults else 0)

#!/usr/bin/env python3
"""Every struct of the header for C has the fields of the Rattle struct that crosses there, in their order and of their types. No compiler compares the two."""
import re
import sys
from pathlib import Path

ROOT = Path(__file__).resolve().parent.parent
HEADER = re.sub(r"/\*.*?\*/", "", (ROOT / "include/lepsaino.h").read_text(), flags=re.S)
RATTLE = "\n".join(path.read_text() for path in sorted((ROOT / "crates").glob("*/src/*.rt")))
NAMES = {"Answer": "answer", "CheckAnswer": "checked", "EventAnswer": "event", "NameAnswer": "name", "MendAnswer": "mended", "FormatNumbers": "format",
         "Slot": "slot", "Reading": "reading", "Object": "object", "Pieces": "pieces"}
TYPES = {"u8": "uint8_t", "u16": "uint16_t", "u32": "uint32_t", "u64": "uint64_t", "usize": "size_t", **{name: f"struct lepsaino_{ours}" for name, ours in NAMES.items()}}


def declared(name):
    """The fields of a struct of the header: type, name, and of how many, where it is an array."""
    body = re.search(rf"^struct lepsaino_{name} \{{\n(.*?)^\}};", HEADER, re.M | re.S)
    return re.findall(r"^ +((?:struct )?\w+) (\w+)(?:\[(\d+)\])?;", body[1], re.M) if body else []


def crossing(name):
    """The same of a struct that is laid out as in C; the fields of one within it that the header does not name stand in its place."""
    body = re.search(rf"^#\[repr\(C\)\]\n(?:#\[derive\([\w, ]*\)\]\n)*pub struct {name} \{{\n(.*?)^\}}", RATTLE, re.M | re.S)
    fields = []
    for field, kind, array, size in re.findall(r"^ +pub (\w+): (?:(\w+)|\[(\w+); (\w+)\]),$", body[1] if body else "", re.M):
        if kind and kind not in TYPES:
            fields += crossing(kind)
        else:
            constant = re.search(rf"\bconst {size}: usize = (\d+);", RATTLE) if size and not size.isdigit() else None
            fields.append((TYPES[kind or array], field, constant[1] if constant else size))
    return fields


def is_same(ours, theirs):
    """A field of a struct within another may have the other's name before its own."""
    return len(ours) == len(theirs) and all(
        (kind, size) == (their_kind, their_size) and (name == their_name or name.endswith(f"_{their_name}"))
        for (kind, name, size), (their_kind, their_name, their_size) in zip(ours, theirs))


known = set(re.findall(r"^struct lepsaino_(\w+) \{", HEADER, re.M))
faults = [f"struct lepsaino_{name} is compared with none" for name in sorted(known - set(NAMES.values()))]
faults += [f"struct lepsaino_{ours} is {declared(ours)}\n  and {name} is {crossing(name)}" for name, ours in NAMES.items()
           if not declared(ours) or not is_same(declared(ours), crossing(name))]
print("\n".join(faults), end="\n" if faults else "", file=sys.stderr)
sys.exit(1 if faults else 0)

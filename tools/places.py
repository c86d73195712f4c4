#!/usr/bin/env python3
"""Counts the places in src/ that an older form of Rattle left, point by point as docs/DESIGN-PASS.md has them.

    tools/places.py [COMMIT]        counts and names them, at a commit or as the files are
"""
import re
import subprocess
import sys
from collections import defaultdict
from pathlib import Path

ROOT = Path(__file__).resolve().parent.parent
FN = re.compile(r'^[ ]*(?:pub(?:\(crate\))? )?(?:extern "C" )?fn (\w+)(?:<[^(]*>)?\(', re.M)
ENUM = re.compile(r"^(?:pub(?:\(crate\))? )?enum (\w+)(?:<[^{]*>)? \{\n(.*?)^\}", re.M | re.S)


def sources(commit):
    """Each file of src/, and of proofs/ the answers, with its text."""
    if commit is None:
        files = subprocess.run(["git", "ls-files", "crates"], cwd=ROOT, capture_output=True, text=True, check=True).stdout.split()
        return {name: (ROOT / name).read_text() for name in files if wanted(name) and (ROOT / name).exists()}
    files = subprocess.run(["git", "ls-tree", "-r", "--name-only", commit, "crates"], cwd=ROOT, capture_output=True, text=True, check=True).stdout.split()
    read = lambda name: subprocess.run(["git", "show", f"{commit}:{name}"], cwd=ROOT, capture_output=True, text=True, check=True).stdout
    return {name: read(name) for name in files if wanted(name)}


def wanted(name):
    return bool(re.search(r"/src/.*\.rt$|/proofs/.*/Answers\.antt$", name))


def closed(text, at, pair):
    """Where what opens at a place closes."""
    depth = 0
    for i in range(at, len(text)):
        depth += (text[i] == pair[0]) - (text[i] == pair[1])
        if depth == 0:
            return i
    return len(text)


def functions(text):
    """Each function's name, parameters, clauses and body."""
    for match in FN.finditer(text):
        end = closed(text, match.end() - 1, "()")
        parameters = [part for part in re.sub(r"<[^<>]*>", "", text[match.end():end]).split(",") if part.strip()]
        body = re.compile(r"^[ ]*\{\n|\{\}$|;$|\{$", re.M).search(text, end)
        start = body.start() if body else end
        clauses = text[end:start]
        opened = text.find("{", start)
        yield match[1], parameters, clauses, text[opened + 1:closed(text, opened, "{}")] if opened >= 0 else ""


def shape(body):
    """A body with names and numbers folded."""
    body = re.sub(r"//[^\n]*", "", body)
    folded = re.sub(r"\d+(?:\w+)?", "0", re.sub(r"\b(?!match|if|else|let|mut|return|for|in|while|loop|self|true|false|Some|None|Ok|Err\b)[A-Za-z_]\w*", "x", body))
    return re.sub(r"\s+", " ", folded).strip()


def main():
    commit = sys.argv[1] if len(sys.argv) > 1 else None
    files = sources(commit)
    code = {name: text for name, text in files.items() if name.endswith(".rt")}
    found = defaultdict(list)
    shapes = defaultdict(list)
    facts = defaultdict(set)
    for name, text in code.items():
        short = name.removeprefix("crates/").replace("/src/", "/")
        for match in ENUM.finditer(text):
            variants = re.findall(r"^    (\w+)(\(|\s*\{)?([^\n]*)", match[2], re.M)
            bare = [v for v in variants if not v[1]]
            if "(Refusal)" in match[2] or bare and len(bare) < len(variants):
                found["1 enum of the shape of Option or Result"].append(f"{short} {match[1]}")
        for number, line in enumerate(text.split("\n"), 1):
            here = f"{short}:{number}"
            if re.search(r"\b(?:given|named|whole): bool|\btitle: Title\b", line):
                found["1 flag beside a value"].append(here)
            if re.search(r"(?:Refused|Err)\((\w+)\) => (?:return )?(?:\w+::Refused|Err)\(\1\)", line):
                found["1 refusal handed on by hand"].append(here)
            if re.match(r"\s*(?:'\w+: )?(?:while|loop)\b", line):
                found["3 loop that counts or tests by hand"].append(here)
            if re.search(r"\b(\w+): \w+\.\1,$", line):
                found["4 field copied by hand"].append(here)
            if re.search(r"\bspace\[\.\.\w+\]|print_front\(.*, \w+\)|&\w+\[\.\.(?:n|m|length)\]", line):
                found["6 buffer with a length beside it"].append(here)
            if re.search(r"NOWHERE", line) and "const" not in line:
                found["6 index that may lead nowhere"].append(here)
            if re.match(r"\s*(?:(?:Wanted|Sought)::\w+|Fault::(?:OutOfTurn|NoId)).* =>|\s*b'\w' =>", line):
                found["7 case of a switch on what to do"].append(here)
        for function, parameters, clauses, body in functions(text):
            place = f"{short} {function}"
            if len(parameters) > 5:
                found["5 function with more than five parameters"].append(f"{place} {len(parameters)}")
            if body.count("\n") >= 3:
                shapes[shape(body)].append(place)
            if re.match(r"(?:of|print)_|\w+_(?:number|given)$", function):
                found["4 conversion or printing by hand"].append(place)
            for clause in re.findall(r"requires[^{]*\{(.*)\}\n", clauses):
                for fact in clause.split(" × "):
                    facts[fact.strip(" ()")].add(place)
    for places in shapes.values():
        if len(places) > 1:
            found["2 function of the shape of another"] += places
    for fact, places in facts.items():
        if len(places) > 2:
            found["5 fact in three contracts or more"].append(f"{fact}: {len(places)}")
    answers = [text for name, text in files.items() if name.endswith(".antt")]
    for kind in sorted(found):
        print(f"{kind}: {len(found[kind])}")
        for place in found[kind]:
            print(f"    {place}")
    print(f"8 files of answers: {len(answers)}, with {sum(text.count(chr(10)) for text in answers)} lines")


main()

#!/usr/bin/env python3
"""Turns the names of this repository's own definitions, lemmas, fields and constructors to snake case, after a port to a Rattle that spells its own so.

usage: python3 tools/respell.py            at the top: rewrites crates/, docs/, README.md, CONTRIBUTING.md and checks/ in place
       python3 tools/respell.py --dry      lists the names, and those that fall together

A name is respelled where a file of specs/ or a lemma file of proofs/ defines it: first camel case, then dashes. Types and modules keep their capitals. A name with dashes keeps them
where without them it would fall together with another, or is one of the library's.
"""
import collections
import glob
import os
import re
import sys

NAME = r"[^\s(){}\[\];:,.λ→≡«»|\\↦`\"←∙×⊎↔/]+"
DEFINED = re.compile(r"^\s*(?:abbrev |unfoldable )?(?:pub )?(?:abbrev )?(" + NAME + r") :(?: |$)", re.M)
STRING = re.compile(r'"(?:\\.|[^"\\])*"')


# lemmas that a port named as the definition that they speak of is to be named
LEMMAS = {"number_by": "number_by_lem"}


def proof_texts():
    return sorted(glob.glob("crates/*/specs/**/*.antt", recursive=True) + glob.glob("crates/*/proofs/**/*.antt", recursive=True))


def read(path):
    with open(path, encoding="utf-8") as file:
        return file.read()


def snake(name):
    return re.sub(r"(?<=[a-z])[A-Z](?![A-Z0-9])", lambda it: "_" + it.group(0).lower(), name)


def respellings():
    defined = set()
    for path in proof_texts():
        if not of_function(path):
            defined.update(DEFINED.findall(read(path)))
    turned = {name: snake(name) for name in defined if not name[0].isupper() and snake(name) != name}
    together = collections.defaultdict(list)
    for name in sorted(turned):
        together[turned[name]].append(name)
    for new, names in together.items():
        if len(names) > 1 or new in defined:
            print("falls together:", new, names, "also defined so" if new in defined else "")
    return turned


def of_function(path):
    return os.path.basename(path) in ("Proof.antt", "Invariants.antt", "Answers.antt") and "/proofs/" in os.path.dirname(path) + "/" and os.path.basename(os.path.dirname(path)) != "proofs"


def imported():
    """The names that files here take from the library."""
    own = r"Rattle\.(?:" + "|".join(os.listdir("crates")) + r")\."
    names = set()
    for path in proof_texts() + glob.glob("crates/*/src/**/*.rt", recursive=True):
        for source, items in re.findall(r"^\s*(?:pub )?(?:ghost )?(?:use|open) (\S+?)\.\{(.*)\}", read(path), re.M):
            if not re.match(own, source):
                names.update(word.strip() for item in items.split(",") for word in item.split(" as "))
    return names


def without_dashes():
    defined = set()
    for path in proof_texts():
        if not of_function(path):
            defined.update(DEFINED.findall(read(path)))
    dashed = [name for name in defined if "-" in name and not name[0].isupper()]
    twice = collections.Counter(name.replace("-", "_") for name in dashed)
    kept = imported() | defined
    return {name: name.replace("-", "_") for name in dashed if name not in imported() and name.replace("-", "_") not in kept and twice[name.replace("-", "_")] == 1}


def respelled(text, turned):
    return re.sub(NAME, lambda it: turned.get(it.group(0), it.group(0)), text)


def aside(text, turned):
    """The text without what stands in quotation marks."""
    parts, at = [], 0
    for it in STRING.finditer(text):
        parts += [respelled(text[at : it.start()], turned), it.group(0)]
        at = it.end()
    return "".join(parts + [respelled(text[at:], turned)])


def in_marks(text, turned):
    return re.sub(r"`[^`\n]+`", lambda it: respelled(it.group(0), turned), text)


def turn_all(turned):
    turns = [(path, respelled) for path in proof_texts()]
    turns += [(path, aside) for path in sorted(glob.glob("crates/*/src/**/*.rt", recursive=True))]
    turns += [(path, in_marks) for path in sorted(glob.glob("docs/*.md")) + ["README.md", "CONTRIBUTING.md"] if path != "docs/PORT.md"]
    for path, turn in turns:
        before = read(path)
        after = turn(before, turned)
        if after != before:
            with open(path, "w", encoding="utf-8") as file:
                file.write(after)
    print(len(turned), "names")


def main():
    if "--dry" in sys.argv:
        for turned in (respellings(), without_dashes()):
            print("\n".join(f"{name} {turned[name]}" for name in sorted(turned)))
        return
    turned = respellings()
    for path in proof_texts() if turned else []:
        before = read(path)
        after = respelled(before, LEMMAS)
        if after != before and "number_by." not in before:
            with open(path, "w", encoding="utf-8") as file:
                file.write(after)
    turn_all(turned)
    turn_all(without_dashes())


main()

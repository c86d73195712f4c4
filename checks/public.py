#!/usr/bin/env python3
"""Every function that another crate or C can call is named in the theorem that contracts ask nothing and settle their answers, or is an exception.

An export that hands a call on is named by the theorem that its contract is that of the call."""
import re
import sys
from pathlib import Path

CRATES = Path(__file__).resolve().parent.parent / "crates"
THEOREMS = [CRATES / "contracts/specs" / name for name in ("Public.antt", "Interface.antt")]
HANDED_ON = CRATES / "lepsaino_c_c/proofs/Handed.antt"

# What these print, read or open is not in the logic, nor the words of an error of std, so no contract could settle it;
# and a signature over a type or a number that is left open is no one signature: of those the trait's clause is the contract, and settles the answer.
EXCEPTIONS = {
    ("console", "print_bytes"): "prints",
    ("console", "fail"): "prints",
    ("console", "open_file"): "opens a file",
    ("console", "path_of"): "gives an error of std where bytes are no path",
    ("console", "read_some"): "reads a file",
    ("replies", "answer_file"): "reads a file and prints",
    ("rows", "RefusalDisplay.fmt"): "prints into any writer",
    ("output", "RefArrayU8Printed.fit"): "over any number of bytes",
    ("output", "Printed.put"): "over any type that is printed",
}


def functions(text):
    """The names of the public functions of a text, methods too."""
    return set(re.findall(r'^ *pub (?:extern "C" )?fn (\w+)', text, re.M))


def in_block(text, head):
    """What stands in each block that begins with such a line, behind what the line says."""
    return [(*found.groups(), found.string[found.end():found.string.index("\n}", found.end())]) for found in re.finditer(rf"^{head} \{{$", text, re.M)]


def as_one_word(text):
    """How a theorem names a type, or a trait with its arguments."""
    named = text.replace("&", "Ref ").replace("[", "Array ").replace("fmt::", "")
    return "".join(word[0].upper() + word[1:] for word in re.findall(r"(?<!')\b\w+", re.sub("; \\w+]", "", named)))


def of_traits(texts):
    """The methods of a crate's impls of traits, where type and trait are public, and those that a public trait gives itself."""
    found = set()
    hidden = set(re.findall(r"^(?:pub\(crate\) )?(?:struct|enum|trait) (\w+)", "\n".join(texts), re.M))
    for text in texts:
        for trait, kind, body in in_block(text, r"impl(?:<[^>]*>)? ([\w:]+(?:<.*>)?) for (.+)"):
            if not hidden & set(re.findall(r"\w+", f"{trait} {kind}")):
                found |= {f"{as_one_word(kind)}{as_one_word(trait)}.{method}" for method in re.findall(r"^ +fn (\w+)", body, re.M)}
        for trait, body in in_block(text, r"pub trait (\w+)(?:: \w+)?"):
            found |= {f"{trait}.{method}" for method in re.findall(r"^ +final fn (\w+)", body, re.M)}
    return found


def callable_in(crate):
    """The functions of a crate that can be called from outside: public in its root, or handed on from there, or exported to C, or a trait's."""
    root = crate / "src/lib.rt"
    if not root.exists():
        return set()
    text = root.read_text()
    found = functions(text) | of_traits([part.read_text() for part in sorted(crate.glob("src/**/*.rt"))])
    for part in sorted(crate.glob("src/**/*.rt")):
        inner = part.read_text()
        found |= set(re.findall(r'^#\[unsafe\(no_mangle\)\]\npub extern "C" fn (\w+)', inner, re.M))
        name = part.stem
        if re.search(rf"^pub mod {name};", text, re.M):
            found |= functions(inner)
        handed_on = re.findall(rf"^pub use {name}::(\w+|{{[^}}]*}})", text, re.M)
        found |= functions(inner) & set(re.findall(r"\w+", " ".join(handed_on)))
    return {(crate.name, function) for function in found}


def aliases(text, place):
    """The crates that a theorem names, by the names that it gives them."""
    return {alias: crate for crate, alias in re.findall(rf"^use Rattle\.(\w+)\.{place}(?:\.\w+)? as ([\w-]+)$", text, re.M)}


def named_in(theorem):
    """The functions whose contracts a theorem speaks of, each with its own signature, what it asks and what it tells."""
    text = theorem.read_text()
    signed, proved = aliases(text, r"specs\.contracts"), aliases(text, "proofs")
    name = r"([\w-]+)\.((?:\w+\.)?«?\w+»?)"
    found = re.findall(rf"^  pub «?\w+»? : Settled(?:As)? {name}\.ended {name}\.Reads\.Asked {name}\.Reads\.Learnt", text, re.M)
    return {(signed[a], f.strip("«»")) for a, f, b, g, c, h in found if signed[a] == proved[b] == proved[c] and f == g == h}


def handed_on(theorem):
    """The functions whose whole contracts a theorem finds equal to those of another crate's functions of the same names, each with that function."""
    text = theorem.read_text()
    signed, proved = aliases(text, r"specs\.contracts"), aliases(text, "proofs")
    found = []
    for record, part, of in (("SameSignatures", "ended", signed), ("SameAsked", r"Reads\.Asked", proved), ("SameLearnt", r"Reads\.Learnt", proved)):
        body = re.search(rf"^pub record {record} : Type \d+ where\n((?:  .*\n)+)", text, re.M)
        is_proved = re.search(rf"^pub [\w-]+ : {record}$", text, re.M)
        fields = re.findall(rf"^  pub (\w+) : ([\w-]+)\.(\w+)\.{part} ≡ ([\w-]+)\.(\w+)\.{part}$", body[1], re.M) if body and is_proved else []
        found.append({((of[a], f), (of[b], g)) for name, a, f, b, g in fields if name == f == g})
    return set.intersection(*found)


public = set().union(*(callable_in(crate) for crate in CRATES.iterdir()))
named = set().union(*(named_in(theorem) for theorem in THEOREMS))
named |= {export for export, call in handed_on(HANDED_ON) if call in named}
faults = [f"{c}::{f} is public, and no theorem names it" for c, f in sorted(public - named - set(EXCEPTIONS))]
faults += [f"{c}::{f} is named, and is not public" for c, f in sorted(named - public)]
faults += [f"{c}::{f} is an exception, and is not public or is named too" for c, f in sorted(set(EXCEPTIONS) - (public - named))]
print("\n".join(faults), end="\n" if faults else "", file=sys.stderr)
sys.exit(1 if faults else 0)

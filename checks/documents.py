"""The documents: their commands and snippets are run, and what they repeat is the same in all places. Silent where all is well."""
import pathlib
import re
import shutil
import subprocess
import sys
import tempfile

sys.dont_write_bytecode = True

from snippets import ROOT, blocks, faults_of, languages, steps, working_folder

# docs/RECIPES.md is run by checks/command.py.
RUN = ["README.md", "docs/RULES.md", "docs/AUDIT.md", "docs/PAGE.md"]
BUILT = ROOT / "target" / "page"
HEADER = (ROOT / "include" / "lepsaino.h").read_text()
MOST_WORDS_OF_README = 1500

# What a snippet finds: a dump's file, the text of its listing, and a server that has the files beside it.
BEFORE = """
import assert from "node:assert/strict";
import { readFileSync } from "node:fs";
const beside = (address) => readFileSync(new URL(address, import.meta.url));
globalThis.file = new Blob([beside("pump.dump")]);
globalThis.text = beside("pump.jsonl").toString();
globalThis.fetch = async (address) => new Response(beside(address));
globalThis.same = (given, shown) => assert.deepStrictEqual(given, shown);
"""


def snippet_faults(document, folder):
    """What the JavaScript of a document gives otherwise than it shows behind an arrow."""
    faults = []
    for number, text in enumerate(blocks(document, "js")):
        module = folder / f"snippet-{number}.mjs"
        shown = re.sub(r"^(.*); // → (.*)$", r"same(\1, \2);", text, flags=re.M)
        module.write_text(f'import "./before.mjs";\n{shown}', "utf-8")
        done = subprocess.run(["node", module], capture_output=True, text=True)
        if done.returncode != 0:
            faults.append(f"{document}, snippet {number}:\n{text}{done.stderr}")
    return faults


def run_snippets(folder):
    """Each document's snippets, beside what page/build made."""
    for path in [*BUILT.glob("*.mjs"), BUILT / "lepsaino.wasm", ROOT / "crates" / "lepsaino" / "data" / "pump.dump"]:
        shutil.copy(path, folder)
    shutil.copy(ROOT / "crates" / "lepsaino" / "stdout", folder / "pump.jsonl")
    (folder / "before.mjs").write_text(BEFORE)
    return [fault for document in RUN for fault in snippet_faults(document, folder)]


def commands_in_sentences():
    """A command that stands in a sentence of a document also stands in a block that is run, or in a script of the gate."""
    run = "\n".join(command for document in [*RUN, "docs/RECIPES.md"] for text in blocks(document, "console") for command, _ in steps(text))
    run += "\n.ci/run, by which this is run\n" + "\n".join((ROOT / name).read_text() for name in (".ci/run", "peer/run", "peer/build-module"))
    for document in RUN:
        sentences = re.sub(r"^```.*?^```$", "", (ROOT / document).read_text(), flags=re.M | re.S)
        for command in re.findall(r"`((?:\./lepsaino|rt|python3|cc|page/build|peer/[a-z.-]+|bench/run|\.ci/run)\b[^`]*)`", sentences):
            words = re.sub(r" [A-Z].*", "", command)
            if words not in run and not (ROOT / words).is_dir():
                yield f"{document}: {command} is run nowhere"


def has_indented(document):
    """Whether there is a block without a fence, which would not be run."""
    return re.search(r"\n\n {4}\S", (ROOT / document).read_text()) is not None


def tables():
    """The refusals of the rules are the header's, and the version is that of the last landing."""
    told = re.findall(r"^ \* {1,2}(\d+)  (.*)$", HEADER, re.M)
    section = re.search(r"^## Refusals\n(.*?)^## ", (ROOT / "docs" / "RULES.md").read_text(), re.M | re.S)[1]
    if re.findall(r"^\| (\d+) \| ([^|]*) \| [^|]+ \| [^|]+ \|$", section, re.M) != told:
        yield "docs/RULES.md: the refusals are not those of the header"
    version = re.search(r"^#define LEPSAINO_VERSION (\d+)$", HEADER, re.M)[1]
    landings = re.findall(r"^## (\d+)\. ", (ROOT / "docs" / "LANDINGS.md").read_text(), re.M)
    if landings[-1] != version:
        yield f"the version is {version}, and the last landing {landings[-1]}"


def links():
    """What a document points to is there, its section too."""
    def anchor(title):
        return re.sub(r"[^\w\- ]", "", title.lower()).replace(" ", "-")

    for document in [ROOT / "README.md", ROOT / "CONTRIBUTING.md", *sorted((ROOT / "docs").glob("*.md"))]:
        for target in re.findall(r"\]\(([^)\s]+)\)", document.read_text()):
            path, _, section = target.partition("#")
            there = (document.parent / path) if path else document
            titles = re.findall(r"^#+ (.*)$", there.read_text(), re.M) if section and there.exists() else []
            if not there.exists() or (section and section not in map(anchor, titles)):
                yield f"{document.name}: {target} is not there"


def main():
    faults = [*tables(), *links(), *commands_in_sentences()]
    faults += [f"{document}: there is a block that is not run" for document in RUN if not languages(document) <= {"console", "js"} or has_indented(document)]
    words = len((ROOT / "README.md").read_text().split())
    if words >= MOST_WORDS_OF_README:
        faults.append(f"README.md has {words} words")
    with tempfile.TemporaryDirectory() as place, tempfile.TemporaryDirectory() as page:
        working_folder(place)
        # A first use may build, and says so.
        subprocess.run([ROOT / "lepsaino"], capture_output=True)
        for document in RUN:
            faults += faults_of(document, place)
        faults += run_snippets(pathlib.Path(page))
    if faults:
        sys.exit("\n".join(faults))


main()

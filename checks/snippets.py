"""The commands and snippets that a document shows, and whether they give what it shows."""
import os
import pathlib
import re
import subprocess

ROOT = pathlib.Path(__file__).resolve().parent.parent
BLOCK = re.compile(r"^```(\w*)\n(.*?)^```$", re.M | re.S)
MARK = "behind a command"


def blocks(document, language):
    """The fenced blocks of a language, in their order."""
    return [text for name, text in BLOCK.findall((ROOT / document).read_text()) if name == language]


def languages(document):
    return {name for name, _ in BLOCK.findall((ROOT / document).read_text())}


def working_folder(folder):
    """A folder in which all that the repository has is at hand, and new files are no part of it."""
    for path in ROOT.iterdir():
        if path.name != ".git":
            (pathlib.Path(folder) / path.name).symlink_to(path)
    return folder


def steps(text):
    """The commands of a block, each with the lines below it."""
    return [(command, shown) for command, shown in re.findall(r"^\$ (.*)\n((?:(?!\$ ).*\n)*)", text, re.M)]


def is_shown(given, shown):
    """Whether a text is the one that is shown, where a line of dots stands for any lines."""
    parts = [re.escape(part) for part in re.split(r"^\.\.\.\n", shown, flags=re.M)]
    return re.fullmatch(r"(?:.*\n)*".join(parts), given) is not None


def faults_of(document, folder):
    """What the commands of a document's console blocks give otherwise than it shows, standard error included. Each block is one shell's."""
    faults = []
    for text in blocks(document, "console"):
        script = "".join(f"{command}\nlast=$?; echo; echo '{MARK}'; (exit $last)\n" for command, _ in steps(text))
        done = subprocess.run(["bash", "-c", script], cwd=folder, stdin=subprocess.DEVNULL, stdout=subprocess.PIPE, stderr=subprocess.STDOUT, text=True,
                              env=dict(os.environ, LC_ALL="C"))
        given = done.stdout.split(f"\n{MARK}\n")
        for (command, shown), text_given in zip(steps(text), given + [""] * len(steps(text))):
            if not is_shown(text_given, shown):
                faults.append(f"{document}: {command}\nshows\n{shown}and gives\n{text_given}")
    return faults

"""The dumps of the corpus that are checked as they come, with what the peer printed for the check."""
import pathlib
import struct

CORPUS = pathlib.Path(__file__).resolve().parent.parent / "crates" / "corpus"


def filled_at(cases, at):
    """A buffer or a name file that lies there, and where what follows it lies."""
    length, last, given = struct.unpack_from("<IcI", cases, at)
    at += 9
    return cases[at:at + given] + last * (length - given), at + given


def case_at(cases, at):
    """The title of the case that lies there, its buffer, the letters of its calls, and where the next case lies. The form is that of cases/form.py."""
    title = cases[at + 1:at + 1 + cases[at]]
    buffer, at = filled_at(cases, at + 1 + len(title))
    _, at = filled_at(cases, at)
    letters = b""
    while cases[at:at + 1] != b".":
        letters += cases[at:at + 1]
        at += 3 + struct.unpack_from("<H", cases, at + 1)[0]
    return title, buffer, letters, at + 1


def checked_dumps():
    """The title and the buffer of each case whose first call is the check, and the reply to it with its line end."""
    cases = (CORPUS / "data" / "cases").read_bytes()
    printed = b"\n" + (CORPUS / "stdout").read_bytes()
    at = line = 0
    while at < len(cases):
        title, buffer, letters, at = case_at(cases, at)
        # No line of a reply begins as a title does, and the cases come in the same order.
        line = printed.index(b"\n" + title + b": ", line) + 1
        if letters[:1] == b"c":
            reply = printed.index(b"\n", line) + 1
            yield title.decode(), buffer, printed[reply:printed.index(b"\n", reply) + 1]

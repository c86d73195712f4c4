"""The page in one of its two forms: the dumps that it is given, what an engineer does with it, and what it shows."""
import base64
import json
import pathlib
import re
import struct
import sys

ROOT = pathlib.Path(__file__).resolve().parent.parent
sys.path.insert(0, str(ROOT / "cases"))

from dumps import ALARM, INIT, ISR, PUMP, VALVE, Dump, changed, entry, slot
from reader import Reading
from texts import NO_MEMBER, name as quoted
from webdriver import Differs, same, until

CONTROL, RELEASE, BACKSPACE, TAB, ENTER, SPACE, HOME, DOWN = "\ue009", "\ue000", "\ue003", "\ue004", "\ue007", " ", "\ue011", "\ue015"

SAMPLE, CUT = ((ROOT / "crates" / "lepsaino" / "data" / f"{each}.dump").read_bytes() for each in ("pump", "cut"))
LINES = (ROOT / "crates" / "lepsaino" / "stdout").read_text()
GIVEN = Reading(3000000, 8192, 0)
# The header for C has the words for each refusal.
WORDS = dict(re.findall(r"^ \* {1,2}(\d+)  (.*)$", (ROOT / "include" / "lepsaino.h").read_text(), re.M))


def dump_with(entries, slots):
    return changed(Dump(len(entries), len(slots), name_size=16), entries=entries, slots=slots).bytes("<")


# Bytes that are not printed as themselves, and a live thread's name that would look removed but for its quotes.
NAMES = [entry(PUMP, b'a"\\  \1\x1f\x7f\x80\xff~'), entry(VALVE, b'x" (removed)'), entry(ALARM, b"x", flag=1)]
# For the picture: the start, a live thread and a removed one, interrupts of both, and a thread without a name.
EVENTS = [(INIT, 0, 1), (PUMP, 16, 6), (ISR, PUMP, 3), (ISR, PUMP, 1025), (ISR, PUMP, 4), (PUMP, 16, 5), (VALVE, 12, 1), (VALVE, 12, 6),
          (ISR, VALVE, 1025), (VALVE, 12, 2), (ALARM, 8, 6), (PUMP, 16, 4096)]
DEVICE = [slot(*event, (65000 + 131 * at + 7 * at * at) % 65536, (at % 3, 0, 4 * at, 0)) for at, event in enumerate(EVENTS)]
DUMPS = {
    "pump.dump": SAMPLE, "cut.dump": CUT, "empty.dump": b"", "long.dump": SAMPLE.ljust(65537, b"\0"),
    "short.dump": SAMPLE[:47], "foreign.dump": bytes(4) + SAMPLE[4:], "registry.dump": SAMPLE[:71],
    # Removing sets the entry's flag and nothing else.
    "removed.dump": SAMPLE[:48] + b"\1" + SAMPLE[49:],
    "names.dump": dump_with(NAMES, [slot(PUMP), slot(VALVE), slot(ALARM)]),
    # Six characters for each of 64 bytes.
    "long-name.dump": changed(Dump(1, 1, name_size=64), entries=[entry(PUMP, b"\xff" * 64)], slots=[slot(PUMP)]).bytes("<"),
    # In a sentence, what is behind such a name would be read from right to left.
    "turned\u202e.dump": CUT,
    "full.dump": changed(Dump(0, 2046).use(*range(2046)), tail=bytes(16)).bytes("<"),
    "device.dump": dump_with([entry(PUMP, b"pump"), entry(VALVE, b"valve", flag=1)], DEVICE),
}


def record(kind, number, name):
    """A record of a name file: kind 1 is an event's, 2 a thread's."""
    return struct.pack("<HHI", 4 + len(name), kind, number) + name


BUILD = record(1, 5, b"start") + record(2, 0x20002000, b"valve")
NAME_FILES = {
    "build.names": BUILD, "other.names": record(1, 1025, b"alarm"), "empty.names": b"", "cut.names": BUILD[:-1], "long.names": bytes(65537),
    # Bytes that are not printed as themselves, zeros too, and a name that would look like none but for its quotes.
    "odd.names": record(1, 5, b'a"\\ \0\xff') + record(1, 6, b"none") + record(1, 1025, b"") + record(2, 0x20002000, b"null\0"),
    # Six characters for each byte: of one event, and more than there is room for where each of 2,046 events has the name.
    "wide.names": record(1, 5, b"\xff" * 300), "large.names": record(1, 5, b"\xff" * 65528),
    "device.names": record(1, 1025, b"door opened") + record(1, 4096, b"dose changed") + record(2, ALARM, b"alarm"),
}
FILES = {**DUMPS, **NAME_FILES}


def example(command):
    """The lines that the README shows below a command."""
    return re.search(rf"^\$ {re.escape(command)}\n((?:[^$`].*\n)+)", (ROOT / "README.md").read_text(), re.M)[1]


def cells(lines):
    """The table's rows for a listing's lines."""
    def shown(name):
        return "none" if name is None else quoted(name.encode("latin-1"))

    def row(key, ticks, us, id, ptr, by, name, gone, field, info, event=NO_MEMBER):
        own = [] if event is NO_MEMBER else [shown(event)]
        return [str(text) for text in (key, ticks, us, id, *own, by, shown(name) + " (removed)" * gone, ptr, field, " ".join(map(str, info)))]

    return [row(**json.loads(line)) for line in lines.splitlines()]


def refusal(number, place=0):
    return f"Refusal {number}, place {place}: {WORDS[str(number)].replace('N', str(place))}."


# Texts as they are laid out, so that what is there but not seen counts as missing; rows that are scrolled away are not laid out.
STATE = """
const part = (id) => document.getElementById(id);
const rows = [...part("table").tBodies[0].rows];
const text = (cell) => (cell.checkVisibility({ contentVisibilityAuto: true }) ? cell.innerText : cell.textContent);
return {
  answer: part("answer").innerText,
  about: part("about").checkVisibility() ? part("about").innerText : "",
  found: part("found").innerText,
  parts: ["mend", "mended", "events"].filter((id) => part(id).checkVisibility()),
  forget: part("forget").checkVisibility(),
  heads: [...part("table").tHead.rows[0].cells].filter((cell) => cell.checkVisibility()).map(text),
  kept: rows.length,
  rows: rows.filter((row) => row.checkVisibility()).map((row) => [...row.cells].map(text)),
  links: [...document.querySelectorAll("a[href]")].map(({ id }) => id),
  invalid: [...document.querySelectorAll('[aria-invalid="true"]')].map(({ id }) => id),
};"""
# The second frame begins when the first is laid out.
GIVE = """
const [fields, done] = arguments;
const start = performance.now();
for (const [id, text] of Object.entries(fields)) {
  document.getElementById(id).value = text;
  document.getElementById(id).dispatchEvent(new Event("input", { bubbles: true }));
}
requestAnimationFrame(() => requestAnimationFrame(() => done(performance.now() - start)));"""
DROP = """
const data = new DataTransfer();
const bytes = (text) => Uint8Array.from(atob(text), (character) => character.charCodeAt(0));
for (const [name, text] of arguments[0]) data.items.add(new File([bytes(text)], name));
const place = document.querySelector(arguments[1]);
const taken = (type) => !place.dispatchEvent(new DragEvent(type, { dataTransfer: data, bubbles: true, cancelable: true }));
return ["dragover", "drop"].every(taken);"""
FETCH = """
const [address, done] = arguments;
document.addEventListener("securitypolicyviolation", ({ effectiveDirective }) => done(effectiveDirective));
fetch(address, { mode: "no-cors" }).then(() => done("nothing"), () => {});"""
TALL = """
const range = document.createRange();
const lines = (cell) => (range.selectNodeContents(cell), range.getClientRects().length);
const cells = [...document.querySelectorAll("th, td")].filter((cell) => cell.checkVisibility());
return cells.filter((cell) => lines(cell) !== 1).map((cell) => cell.innerText);"""
# The row that is seen last once all is scrolled to the end.
LAST = """
const scroll = document.getElementById("scroll");
scroll.scrollTo(0, scroll.scrollHeight);
scroll.scrollIntoView({ block: "end" });
const { left, bottom } = scroll.getBoundingClientRect();
const row = document.elementFromPoint(left + 20, bottom - scroll.offsetHeight + scroll.clientHeight - 5).closest("tr");
return [...row.cells].map((cell) => cell.innerText);"""
FOCUS = "return document.activeElement.id || document.activeElement.localName;"
COUNTS = "return [...document.querySelectorAll('dd')].map(({ innerText }) => Number(innerText));"
INDICES = "return [...document.querySelectorAll('table, tbody tr')].map(({ ariaRowCount, ariaRowIndex }) => ariaRowCount ?? ariaRowIndex);"
RESOURCES = "return performance.getEntriesByType('resource').map(({ name }) => name);"
# The next file that is read comes when it is told to, or never can be read.
HOLD = """
const read = Blob.prototype.arrayBuffer;
Blob.prototype.arrayBuffer = function () {
  Blob.prototype.arrayBuffer = read;
  return new Promise((done, fail) => { window.come = () => done(read.call(this)); window.fail = () => fail(new Error("no")); });
};"""
# How wide the table is, and, on paper, how much of it is cut off.
WIDTH = "return [document.getElementById('table').offsetWidth, document.getElementById('scroll').clientWidth];"
CUT_OFF = "const scroll = document.getElementById('scroll'); return scroll.scrollHeight - scroll.clientHeight;"
BREAK = "URL.createObjectURL = () => { throw new Error('no room'); };"
CHOICE = """
const file = document.getElementById(arguments[0]);
file.addEventListener("click", (event) => event.preventDefault(), { once: true });
file.click();
const emptied = file.files.length;
file.dispatchEvent(new Event("cancel"));
return [emptied, file.files[0].name];"""
NOTHING = dict(kept=0, rows=[], links=[])


class Page:
    """The page in one of its two forms, and what an engineer does with it."""

    def __init__(self, browser, folder, server, is_served):
        self.browser, self.folder, self.server, self.is_served = browser, folder, server, is_served
        self.address = f"{server.address}dump.html" if is_served else (folder / "page" / "lepsaino.html").as_uri()

    def open(self, dump):
        """The page anew, with a dump."""
        self.browser.post("/url", url=self.address)
        self.choose(dump)

    def choose(self, dump):
        self.browser.type("#file", str(self.folder / "dumps" / dump))

    def name(self, file):
        """Chooses a name file."""
        self.browser.type("#names", str(self.folder / "dumps" / file))

    def type(self, field, text):
        """Types over what stands in a field."""
        self.browser.type(f"#{field}", f"{CONTROL}a{RELEASE}{text or BACKSPACE}")

    def give(self, **fields):
        """Fills in fields without going there; how many milliseconds it takes until all is shown."""
        return self.browser.script(GIVE, fields, kind="async")

    def list(self, dump="pump.dump", lines=LINES):
        self.open(dump)
        self.give(rate="3000000", unit="8192", serial="0")
        self.shows(parts=["events"], rows=cells(lines))

    def refuse(self, dump, said):
        self.choose(dump)
        self.shows(said, parts=["mend"], **NOTHING)

    def mend(self):
        self.browser.click("#mend")
        self.shows("2 events", parts=["mended", "events"])

    def search(self, by, text=None):
        """Chooses by keys, since the driver's click gives no input event."""
        self.browser.type("#by", HOME + DOWN * ["key", "name", "id"].index(by))
        if text is not None:
            self.type("wanted", text)

    def drop(self, *names, place="body"):
        files = [(name, base64.b64encode(FILES[name]).decode()) for name in names]
        same("whether a drop is taken", self.browser.script(DROP, files, place), True)

    def shows(self, says="", **expected):
        """The answer has these words, and the rest of what is shown is as expected."""
        seen = until(lambda: self.browser.script(STATE), lambda seen: says in seen["answer"] and seen.items() >= expected.items())
        if says not in seen["answer"]:
            raise Differs(f"the answer should have the words {says!r}, not {seen['answer']!r}")
        for what, value in expected.items():
            same(what, seen[what], value)

    def saves(self, link, file, content):
        """The link downloads a file of that name with these bytes."""
        path = self.folder / "downloads" / file
        path.unlink(missing_ok=True)
        self.browser.click(f"#{link}")
        same(file, until(lambda: path.read_bytes() if path.exists() else None, lambda seen: seen == content), content)

    def stops(self, count):
        """Where the focus is, and where after each press of the tab key."""
        return [self.browser.script(FOCUS), *[(self.browser.press(TAB), self.browser.script(FOCUS))[1] for _ in range(count)]]

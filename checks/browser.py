"""The page in Chromium, over WebDriver, served and as one file. One line where all is well, with the time that the longest table takes."""
import argparse
import json
import pathlib
import shutil
import statistics
import subprocess
import sys
import tempfile

sys.dont_write_bytecode = True

from page_in_browser import (BREAK, CHOICE, COUNTS, CUT, DUMPS, ENTER, FETCH, FILES, GIVEN, HOLD, INDICES, LAST, LINES, NAME_FILES, NOTHING, RESOURCES,
                             ROOT, SAMPLE, SPACE, TALL, WIDTH, CUT_OFF, Page, cells, example, refusal)
from mender import mend
from reader import listing
from webdriver import Differs, NotStarted, Server, same, started, until

PACKAGES = {"chromium": "chromium", "chromedriver": "chromium-driver"}


def lists(page):
    """The reading is typed, each cell is the listing's, and each stands on one line."""
    page.open("pump.dump")
    for field, number in GIVEN._asdict().items():
        page.type(field, str(number))
    shown = dict(about="This is about the file pump.dump.", found="3 of 3 events", kept=3, rows=cells(LINES), links=["save-listing"], invalid=[])
    page.shows("3 events, each under a key of its own.", parts=["events"], **shown)
    same("the cells that do not stand on one line", page.browser.script(TALL), [])


def says_what_is_missing(page):
    page.open("pump.dump")
    passed = "3 events, and every check passes. To list them: give "
    page.shows(f"{passed}the clock rate, in digits; give the unit number, in digits.", parts=[], invalid=[], **NOTHING)
    page.type("rate", "3000000")
    page.shows(f"{passed}the unit number, in digits.", parts=[], **NOTHING)
    page.give(unit="8192", serial="")
    page.shows(f"{passed}the first serial, in digits.", parts=[], **NOTHING)


def searches(page):
    page.list()
    rows = cells(LINES)
    # Read as floats, the first two keys are one.
    for by, text, kept in (("key", "9007199254740993", [1]), ("key", "9007199254740992", [0]), ("key", "900719925474099", []),
                           ("name", "pump", [0, 1]), ("name", "PUM", [0, 1]), ("id", "1025", [1]), ("id", " 6 ", [2])):
        page.search(by, text)
        page.shows(found=f"{len(kept)} of 3 events", kept=3, rows=[rows[index] for index in kept], invalid=[])
    page.search("key", "pump")
    page.shows(found="This is searched for by digits alone.", rows=[], invalid=["wanted"])
    page.search("name")
    page.shows(found="2 of 3 events", rows=rows[:2], invalid=[])
    page.type("wanted", "")
    page.shows(found="3 of 3 events", rows=rows, invalid=[])


CUT_SHORT = refusal(26, 18)
# The field, what is typed, what is said, which fields are marked.
READINGS = [("rate", "0", refusal(14), []), ("unit", "16777216", refusal(15), []),
            ("unit", "4294967296", "the unit number must be from 0 to 4294967295", ["unit"]), ("rate", "-1", "give the clock rate, in digits", ["rate"]),
            ("serial", "18446744073709551616", "the first serial must be from 0 to 18446744073709551615", ["serial"]),
            ("unit", "8192x", "give the unit number, in digits", ["unit"])]


def refuses(page):
    """Refusals and errors in words, with nothing left of what was shown before."""
    page.list()
    for dump, said in (("cut.dump", CUT_SHORT), ("empty.dump", refusal(1)), ("long.dump", refusal(2))):
        page.refuse(dump, said)
        page.choose("pump.dump")
        page.shows(parts=["events"], rows=cells(LINES))
    for field, text, said, marked in READINGS:
        page.type(field, text)
        page.shows(said, parts=[], invalid=marked, **NOTHING)
        page.type(field, str(getattr(GIVEN, field)))
        page.shows(parts=["events"], rows=cells(LINES), invalid=[])


def mends(page):
    """The copy is the independent mender's, its counts and its events are the README's; what cannot be mended is refused."""
    page.list()
    page.refuse("cut.dump", CUT_SHORT)
    page.mend()
    lines = example("./lepsaino mended.dump 3000000 8192 0")
    page.shows("The mended copy: 2 events, each under", about="This is about a mended copy of the file cut.dump.", kept=2, rows=cells(lines), links=["save-copy", "save-listing"])
    _, *counts = json.loads(example("./lepsaino mend crates/lepsaino/data/cut.dump mended.dump")).values()
    same("the six counts", page.browser.script(COUNTS), counts)
    page.saves("save-copy", "cut.dump.mended", mend(CUT, len(SAMPLE))[0])
    page.saves("save-listing", "cut.dump.mended.jsonl", lines.encode())
    page.browser.click("#discard")
    page.shows(CUT_SHORT, parts=["mend"], **NOTHING)
    for dump, said in (("short.dump", refusal(1)), ("foreign.dump", refusal(3)), ("registry.dump", refusal(26, 1))):
        page.refuse(dump, said)
        page.browser.click("#mend")
        page.shows(f"It cannot be mended. {said}", parts=[], **NOTHING)
        # Nor once something else is typed.
        page.give(serial="1")
        page.shows(f"It cannot be mended. {said}", parts=[], **NOTHING)


def saves(page):
    page.list()
    page.saves("save-listing", "pump.dump.jsonl", LINES.encode())


def drops(page):
    page.list()
    page.drop("cut.dump")
    page.shows(CUT_SHORT, parts=["mend"], **NOTHING)
    page.drop("pump.dump")
    page.shows("3 events", parts=["events"], rows=cells(LINES))
    page.drop("pump.dump", "cut.dump")
    page.shows("Give one file at a time.", parts=[], **NOTHING)


def lines_with(names, dump=SAMPLE):
    """The listing with a name file."""
    return listing(dump, GIVEN, 1500000, NAME_FILES[names])


def names_events(page):
    """With a name file each event has its own name, which a search finds and the listing has; without one all is as before."""
    page.list()
    page.shows(heads=HEADS, forget=False)
    page.name("build.names")
    lines, about = lines_with("build.names"), "This is about the file pump.dump, with names from the file build.names."
    page.shows("3 events, each under a key of its own.", about=about, heads=ALL_HEADS, rows=cells(lines), links=["save-listing"], forget=True)
    same("the cells that do not stand on one line", page.browser.script(TALL), [])
    page.saves("save-listing", "pump.dump.jsonl", lines.encode())
    for text, kept in (("start", [0]), ("VALV", [2]), ("pump", [0, 1])):
        page.search("name", text)
        page.shows(found=f"{len(kept)} of 3 events", kept=3, rows=[cells(lines)[index] for index in kept])
    page.give(wanted="")
    for names in ("empty.names", "odd.names", "other.names"):
        page.name(names)
        page.shows("3 events", rows=cells(lines_with(names)), heads=ALL_HEADS)
    # The names are those of the build: they stay with another dump, and with its copy.
    page.refuse("cut.dump", CUT_SHORT)
    page.mend()
    copy = mend(CUT, len(SAMPLE))[0]
    page.shows(about="This is about a mended copy of the file cut.dump, with names from the file other.names.", rows=cells(lines_with("other.names", copy)))
    page.choose("pump.dump")
    page.shows(rows=cells(lines_with("other.names")))
    page.browser.click("#forget")
    page.shows("3 events", about="This is about the file pump.dump.", heads=HEADS, rows=cells(LINES), forget=False)
    same("where the focus is then", page.stops(0), ["names"])


def refuses_names(page):
    """What is wrong with a name file is told in words, also before all is typed, with nothing left of what was shown before."""
    page.list()
    for names, said in (("cut.names", refusal(27, 13)), ("long.names", refusal(2))):
        page.name(names)
        page.shows(f"The name file is refused. {said}", parts=[], forget=True, **NOTHING)
        page.give(rate="")
        page.shows(f"The name file is refused. {said}", parts=[], invalid=[], **NOTHING)
        page.name("build.names")
        page.shows("3 events, and every check passes. To list them: give the clock rate, in digits.", parts=[], **NOTHING)
        page.give(rate="3000000")
        page.shows(parts=["events"], rows=cells(lines_with("build.names")))
    page.give(rate="0")
    page.name("cut.names")
    page.shows(refusal(14), parts=[], **NOTHING)
    page.refuse("cut.dump", CUT_SHORT)
    page.list("full.dump", listing(DUMPS["full.dump"], GIVEN, 1500000))
    page.name("large.names")
    page.shows(f"With these names the listing is longer than this page has room for. {refusal(16)}", parts=[], **NOTHING)
    page.browser.click("#forget")
    page.shows("2,046 events", parts=["events"], kept=2046, forget=False)


def takes_names(page):
    """A name file is dropped on its field, and anything else of the page takes a dump; the last one given is shown, and what fails is told."""
    page.list()
    page.drop("build.names", place="#names")
    page.shows(rows=cells(lines_with("build.names")))
    page.drop("pump.dump")
    page.shows(about="This is about the file pump.dump, with names from the file build.names.", rows=cells(lines_with("build.names")))
    page.drop("build.names", "empty.names", place="#names")
    page.shows("Give one name file at a time.", parts=[], about="", forget=True, **NOTHING)
    page.name("build.names")
    page.shows(rows=cells(lines_with("build.names")))
    same("an emptied field, and its file once no other is chosen", page.browser.script(CHOICE, "names"), [0, "build.names"])
    page.browser.script(HOLD)
    page.drop("cut.names", place="#names")
    page.shows("Reading the name file.", parts=[], about="", **NOTHING)
    page.drop("other.names", place="#names")
    page.shows(rows=cells(lines_with("other.names")))
    page.browser.script("window.come();")
    page.give(wanted="")
    page.shows("3 events", rows=cells(lines_with("other.names")))
    page.browser.script(HOLD)
    page.name("build.names")
    page.browser.script("window.fail();")
    page.shows("The name file could not be read.", parts=[], about="", forget=True, **NOTHING)
    page.browser.click("#forget")
    page.shows("3 events", parts=["events"], rows=cells(LINES))


def shows_odd_names(page):
    """A long name goes on in the next line, and a file's name is kept apart from what is said."""
    dump = DUMPS["long-name.dump"]
    page.list("long-name.dump", listing(dump, GIVEN, 9999))
    for names in (None, "wide.names"):
        if names is not None:
            page.name(names)
            page.shows(rows=cells(lines_with(names, dump)))
        wide, room = page.browser.script(WIDTH)
        same(f"whether a long name leaves the table within its room with the name file {names}", wide <= room, True)
    page.browser.click("#forget")
    page.refuse("turned\u202e.dump", CUT_SHORT)
    page.shows(answer=CUT_SHORT)
    same("what keeps a file's name apart", page.browser.script("return document.querySelector('#about .file').localName;"), "bdi")


def prints_all(page):
    """On paper nothing of the table is cut off."""
    page.list("full.dump", listing(DUMPS["full.dump"], GIVEN, 1500000))
    page.browser.post("/goog/cdp/execute", cmd="Emulation.setEmulatedMedia", params={"media": "print"})
    same("the pixels that are cut off on paper", page.browser.script(CUT_OFF), 0)
    page.browser.post("/goog/cdp/execute", cmd="Emulation.setEmulatedMedia", params={"media": ""})


def leaves_nothing_stale(page):
    """Of another dump nothing stays: no copy, no search, no mark; the last file given is shown, whichever is read first; what fails is told."""
    page.list()
    page.refuse("cut.dump", CUT_SHORT)
    page.mend()
    page.search("key", "9007199254740993")
    page.choose("pump.dump")
    page.shows("3 events", about="This is about the file pump.dump.", parts=["events"], rows=cells(LINES), links=["save-listing"], found="3 of 3 events")
    page.give(unit="x")
    page.refuse("cut.dump", CUT_SHORT)
    page.shows(invalid=["unit"])
    page.give(unit="8192")
    page.shows(CUT_SHORT, invalid=[])
    same("an emptied field, and its file once no other is chosen", page.browser.script(CHOICE, "file"), [0, "cut.dump"])
    page.browser.script(HOLD)
    page.drop("cut.dump")
    page.give(serial="0")
    page.shows("Reading.", parts=[], about="", **NOTHING)
    page.drop("pump.dump")
    page.shows(parts=["events"], rows=cells(LINES))
    page.browser.script("window.come();")
    page.give(wanted="")
    page.shows("3 events", parts=["events"], rows=cells(LINES))
    page.browser.script(HOLD)
    page.choose("cut.dump")
    page.browser.script("window.fail();")
    page.shows("This file could not be read.", parts=[], about="", **NOTHING)
    page.choose("pump.dump")
    page.shows("3 events")
    page.browser.script(BREAK)
    page.give(serial="0")
    page.shows("Nothing is shown: no room.", parts=[], about="", **NOTHING)


def tells_that_the_module_is_missing(browser, folder):
    """A served page whose module is not there says so, also once a dump is chosen."""
    broken = folder / "broken"
    shutil.copytree(folder / "page", broken, ignore=shutil.ignore_patterns("*.wasm"))
    with Server(broken) as server:
        page = Page(browser, folder, server, True)
        page.open("pump.dump")
        page.shows("The library could not be loaded: lepsaino.wasm could not be fetched: status 404.", parts=[], **NOTHING)
        server.shutdown()
    browser.log()


FETCHED = """
const rows = [...document.querySelectorAll("tbody tr")].filter((row) => row.checkVisibility());
return [document.getElementById("answer").innerText, rows.map((row) => [...row.cells].map((cell) => cell.innerText))];"""


def shows_what_is_fetched(browser, folder):
    """page/example.html shows a whole listing with as many events as it is told, and nothing else; none from elsewhere."""
    served = folder / "example"
    shutil.copytree(folder / "page", served)
    shutil.copy(ROOT / "page" / "example.html", served)
    named = lines_with("build.names")
    for name, text in (("pump.jsonl", LINES), ("named.jsonl", named), ("lost.jsonl", LINES[:LINES.index("\n") + 1]), ("none.jsonl", ""), ("refused.jsonl", "11 3\n")):
        (served / name).write_text(text)
    with Server(served) as server:
        elsewhere = f"{server.address.replace('127.0.0.1', 'localhost')}pump.jsonl"
        for listing, events, said, rows in (
            ("pump.jsonl", 3, "Events, each under its own key: 3.", cells(LINES)), ("named.jsonl", 3, "Events, each under its own key: 3.", cells(named)),
            ("none.jsonl", 0, "Events, each under its own key: 0.", []),
            ("lost.jsonl", 3, "Nothing is shown: line 2, column 1: the number of events is 1: expected 3.", []),
            ("none.jsonl", 3, "Nothing is shown: line 1, column 1: the number of events is 0: expected 3.", []),
            ("refused.jsonl", 3, "The dump was refused: 11 3: entry 3 is in use with a type that is not allowed.", []),
            ("missing.jsonl", 0, "Nothing is shown: the server answered with status 404.", []), (elsewhere, 3, "Nothing is shown: Failed to fetch.", []),
        ):
            browser.post("/url", url=f"{server.address}example.html?listing={listing}&events={events}")
            same(f"what is shown of {listing}", until(lambda: browser.script(FETCHED), lambda seen: "being" not in seen[0]), [said, rows])
        browser.post("/url", url=f"{server.address}example.html?listing=none.jsonl")
        said = "Nothing is shown: the number of events must be a whole number, or its digits."
        same("what is shown without a number", until(lambda: browser.script(FETCHED), lambda seen: "being" not in seen[0]), [said, []])
        server.shutdown()
    browser.log()


def tells_names_apart(page):
    for dump in ("removed.dump", "names.dump"):
        page.list(dump, listing(DUMPS[dump], GIVEN, 9999))


def shows_all(page):
    """The longest table; gives how long showing it takes and how long searching it."""
    lines = listing(DUMPS["full.dump"], GIVEN, 1500000)
    page.list("full.dump", lines)
    keys = [str(2**53 + index) for index in range(2046)]
    same("the keys", [row[0] for row in cells(lines)], keys)
    last = cells(lines)[-1]
    same("the last row", until(lambda: page.browser.script(LAST), lambda seen: seen == last), last)
    times = []
    for key in keys[5::500]:
        page.give(wanted="", unit="")
        times.append((page.give(unit="8192"), page.give(wanted=key)))
        page.shows(found="1 of 2,046 events", kept=2046)
    return [statistics.median(each) for each in zip(*times)]


def works_by_keys(page):
    """The tab key stops at each control and nowhere else, buttons are pressed by keys, and the focus is never lost."""
    fields, events = ["file", "names", "rate", "unit", "serial"], ["save-listing", "by", "wanted", "scroll"]
    page.list()
    same("the stops of a listing", page.stops(10), ["body", *fields, *events, "body"])
    page.name("build.names")
    page.shows(rows=cells(lines_with("build.names")))
    same("the stops up to a name file", page.stops(3), ["body", "file", "names", "forget"])
    page.browser.press(ENTER)
    page.shows(rows=cells(LINES))
    same("where the focus is without names", page.stops(0), ["names"])
    for key in (ENTER, SPACE):
        page.list()
        page.refuse("cut.dump", CUT_SHORT)
        same("the stops of a refused dump", page.stops(6), ["body", *fields, "mend"])
        page.browser.press(key)
        page.shows(parts=["mended", "events"])
        same("the stops after mending", page.stops(5), ["save-copy", "discard", *events])
    page.open("short.dump")
    page.shows(refusal(1), parts=["mend"])
    page.stops(6)
    page.browser.press(ENTER)
    page.shows("It cannot be mended.")
    same("whether the focus is lost where nothing can be mended", page.stops(0) == ["body"], False)


ALL_HEADS = ["Key", "Ticks", "Microseconds", "Event id", "Event name", "By", "Name", "Pointer", "Field", "Information"]
HEADS = [head for head in ALL_HEADS if head != "Event name"]


def heads_heard(heads):
    return {f"thead th:nth-child({ALL_HEADS.index(head) + 1})": ("columnheader", head) for head in heads}


# By selector, the role and how the label begins.
HEARD = {
    "#file": ("button", "Dump"), "#names": ("button", "Names from the build (optional)"), "#rate": ("textbox", "Clock rate in Hz"), "#unit": ("textbox", "Unit number"), "#serial": ("textbox", "First serial"),
    "#answer": ("status", ""), "#save-listing": ("link", "Save the listing as JSON lines"), "#search": ("search", ""), "#by": ("combobox", "Search by"),
    "#wanted": ("searchbox", "Search for"), "#found": ("status", ""), "#scroll": ("region", "Table of events"), "#table": ("table", "Events of pump.dump"),
    "#events": ("region", "Events of pump.dump"),
    **heads_heard(HEADS),
    **{f"tbody tr:nth-child({place}) :first-child": ("rowheader", row[0]) for place, row in enumerate(cells(LINES), 1)},
}
HEARD_OF_A_COPY = {"#mended": ("region", "Mended copy"), "#save-copy": ("link", "Save the mended copy"), "#discard": ("button", "Back to the dump")}


def is_heard(page):
    """What a screen reader is told: roles, labels, and which row is which."""
    def must_hear(expected):
        for selector, (role, label) in expected.items():
            heard, said = page.browser.heard(selector)
            same(f"role and label of {selector}", (heard, said[:len(label)]), (role, label))

    page.list()
    must_hear(HEARD)
    same("the count of rows with that of the heads, and the indices of the others", page.browser.script(INDICES), ["4", "2", "3", "4"])
    page.refuse("cut.dump", CUT_SHORT)
    must_hear({"#mend": ("button", "Mend a copy")})
    page.mend()
    must_hear(HEARD_OF_A_COPY)
    page.list()
    page.name("build.names")
    page.shows(heads=ALL_HEADS)
    must_hear({**heads_heard(ALL_HEADS), "#forget": ("button", "List without names")})


def sends_nothing(page):
    """The served page takes only files of its folder, the one file takes none, and the policy lets nothing out."""
    page.list()
    address, asked = page.server.address, page.server.asked
    own = {f"{address}{path.name}" for path in (page.folder / "page").iterdir()} if page.is_served else set()
    taken = set(page.browser.script(RESOURCES))
    same("what is taken from elsewhere", taken - own, set())
    same("whether anything is taken", taken != set(), page.is_served)
    same("what else the server is asked for", {address + path[1:] for path in asked} - own, set())
    same("what the browser complains of", page.browser.log(), [])
    # Another host by its name, so that it is elsewhere for the served page too.
    seen = page.browser.script(FETCH, f"{address.replace('127.0.0.1', 'localhost')}elsewhere", kind="async")
    same("what stops a fetch from elsewhere, and whether it comes to the server", (seen, "/elsewhere" in asked), ("connect-src", False))
    page.browser.log()


TESTS = [lists, says_what_is_missing, searches, refuses, mends, saves, drops, leaves_nothing_stale, tells_names_apart, names_events, refuses_names,
         takes_names, shows_odd_names, prints_all, shows_all, works_by_keys, is_heard, sends_nothing]


def tested(page):
    """What differed, and the times of the longest table."""
    faults, times = [], []
    page.server.asked.clear()
    for test in TESTS:
        try:
            times.append(test(page))
        except Differs as fault:
            faults.append(f"{'served' if page.is_served else 'one file'}, {test.__name__}: {fault}")
    return faults, [each for each in times if each]


def draw(page, path):
    """A picture of the page, in light colours."""
    size = dict(width=1280, height=860, deviceScaleFactor=1, mobile=False)
    light = dict(features=[{"name": "prefers-color-scheme", "value": "light"}])
    for command, given in (("setDeviceMetricsOverride", size), ("setEmulatedMedia", light)):
        page.browser.post("/goog/cdp/execute", cmd=f"Emulation.{command}", params=given)
    page.list("device.dump", listing(DUMPS["device.dump"], GIVEN, 9999))
    page.name("device.names")
    page.shows(rows=cells(lines_with("device.names", DUMPS["device.dump"])))
    path.write_bytes(page.browser.picture())


def run(folder, picture):
    """What is said where all is well."""
    for inner in ("dumps", "downloads"):
        (folder / inner).mkdir()
    for name, content in FILES.items():
        (folder / "dumps" / name).write_bytes(content)
    same("the status of page/build", subprocess.run([ROOT / "page" / "build", folder / "page"]).returncode, 0)
    with Server(folder / "page") as server, started(folder) as browser:
        pages = [Page(browser, folder, server, is_served) for is_served in (True, False)]
        tells_that_the_module_is_missing(browser, folder)
        shows_what_is_fetched(browser, folder)
        faults, times = (sum(both, []) for both in zip(*map(tested, pages)))
        if picture:
            draw(pages[0], picture)
        server.shutdown()
    if faults:
        raise Differs("\nbrowser: ".join(faults))
    version = ".".join(browser.version.split(".")[:2])
    shown, searched = (round(statistics.mean(each)) for each in zip(*times))
    return f"the page passed in Chromium {version}, served and as one file; 2,046 events shown in {shown} ms, searched in {searched} ms"


def main():
    parser = argparse.ArgumentParser(description=__doc__)
    parser.add_argument("--if-there", action="store_true", help="install nothing, and test nothing where there is no Chromium or no driver")
    parser.add_argument("--picture", type=pathlib.Path, metavar="FILE", help="also write a picture of the page")
    given = parser.parse_args()
    missing = [package for program, package in PACKAGES.items() if not shutil.which(program)]
    if missing and given.if_there:
        return print(f"browser: no {' and no '.join(missing)} here, so the page was not tested in a browser")
    install = f"apt-get update && apt-get install -y --no-install-recommends {' '.join(missing)}"
    if missing and subprocess.run(install, shell=True, stdout=sys.stderr).returncode != 0:
        sys.exit(f"browser: {' and '.join(missing)} could not be installed")
    try:
        with tempfile.TemporaryDirectory() as folder:
            print(f"browser: {run(pathlib.Path(folder), given.picture)}")
    except Differs as fault:
        sys.exit(f"browser: {fault}")
    except NotStarted as why:
        said = f"browser: Chromium could not be started, so the page was not tested in a browser: {why}"
        print(said) if given.if_there else sys.exit(said)


main()

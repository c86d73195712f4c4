"""report.py RESULTS DOCUMENT writes the tables of the results between the document's marks; all other text stays."""
import pathlib
import re
import statistics
import sys

from goals import GOALS
from titles import COMPETITORS, DIGITS, JOBS, SHAPES

OURS = "lepsaino"
MODULE = "node-module"
WITHOUT_FILE = "lepsaino-fileless"


def read(path):
    """By job and competitor: the best of the bests and the median of the medians."""
    found = {}
    for line in path.read_text().splitlines():
        job, competitor, best, median = line.split()
        found.setdefault(job, {}).setdefault(competitor, []).append((float(best), float(median)))
    return {job: {name: merged(times) for name, times in row.items()} for job, row in found.items()}


def merged(times):
    bests, medians = zip(*times)
    return min(bests), statistics.median(medians)


def table(heads, rows, words=2):
    """So many columns hold words, the others numbers."""
    ruler = ["---" if index < words else "---:" for index in range(len(heads))]
    return "\n".join(f"| {' | '.join(map(str, row))} |" for row in [heads, ruler, *rows])


def time_text(nanoseconds):
    return f"{nanoseconds:,.1f} ns" if nanoseconds < 1000 else f"{nanoseconds / 1000:,.1f} µs"


def ratio_text(ratio):
    # A goal may be a hundredth.
    digits = 4 if ratio < 0.1 else 2 if ratio < 10 else 0
    return f"{ratio:.{digits}f}"


def goals(times):
    rows = []
    for job, competitor, goal in GOALS:
        (ours, ours_median), (best, median) = times[job][OURS], times[job][competitor]
        verdict = "met" if best >= goal * ours else "**MISSED**"
        rows.append([JOBS[job], COMPETITORS[competitor], ratio_text(best / ours), ratio_text(median / ours_median), round(goal, 2), verdict])
    return table(["job", "competitor", "ratio by best times", "by medians", "goal", "verdict"], rows)


def all_times(times):
    rows = []
    for job, row in times.items():
        ours, ours_median = row[OURS]
        for name, (best, median) in row.items():
            ratios = ratio_text(best / ours), ratio_text(median / ours_median)
            rows.append([JOBS[job], COMPETITORS[name], time_text(best), time_text(median), *ratios])
    return table(["job", "competitor", "best", "median", "ratio by best times", "by medians"], rows)


def counted(path):
    """Job, competitor, instructions, and for what each; none where there was no valgrind."""
    return [line.split() for line in path.read_text().splitlines()] if path.exists() else []


def instructions(counts):
    if not counts:
        return "Not counted in this run: there was no valgrind."
    # Numbers by length have a table of their own.
    shown = [row for row in counts if not row[0].startswith("digits-")]
    rows = [[JOBS[job], COMPETITORS[competitor], f"{int(count):,}", each] for job, competitor, count, each in shown]
    return table(["job", "competitor", "instructions", "for each"], rows)


def event_growth(growth):
    rows = []
    for job, row in growth.items():
        if job.startswith("events-"):
            count = int(job.rpartition("-")[2])
            each = row[OURS][0]
            rows.append([f"{count:,}", time_text(each * count), f"{each:.1f}", f"{row['itoa'][0]:.1f}"])
    return table(["events", "the library, the whole listing", "the library, ns for each event", "Rust with itoa"], rows, words=0)


def entry_growth(growth):
    rows = []
    for job, one in growth.items():
        if job.startswith("entries-one-"):
            count = job.rpartition("-")[2]
            every = growth[f"entries-all-{count}"]
            times = one[OURS], one["itoa"], every[OURS], every["itoa"], every["itoa-map"]
            rows.append([f"{int(count):,}", *(f"{best:.1f}" for best, _ in times)])
    heads = ["entries", "one thread: the library", "Rust with itoa", "all threads: the library", "Rust with itoa", "the same with a map"]
    return table(heads, rows, words=0)


def filed_event_growth(growth):
    rows = []
    for job, row in growth.items():
        if job.startswith("filed-events-"):
            count = int(job.rpartition("-")[2])
            ours, without, by_map = (row[name][0] for name in [OURS, WITHOUT_FILE, "itoa-map"])
            rows.append([f"{count:,}", time_text(ours * count), f"{ours:.1f}", f"{without:.1f}", f"{by_map:.1f}"])
    heads = ["events", "the library, the whole listing", "the library, ns for each event", "the same without the file", "Rust with itoa, names in maps"]
    return table(heads, rows, words=0)


def record_growth(growth):
    rows = []
    for job, row in growth.items():
        if job.startswith(("filed-records-", "filed-crowded-")):
            _, shape, count = job.split("-")
            times = [f"{row[name][0]:.1f}" for name in [OURS, WITHOUT_FILE, "itoa-map"]]
            rows.append([SHAPES["irregular" if shape == "records" else shape], f"{int(count):,}", *times])
    heads = ["numbers", "records", "the library, ns for each event", "the same without the file", "Rust with itoa, names in maps"]
    return table(heads, rows, words=1)


def shapes(growth):
    rows = []
    for job, row in growth.items():
        if job.startswith("shape-"):
            _, shape, entries = job.split("-")
            ours, nameless, by_map = (row[name][0] for name in [OURS, "lepsaino-nameless", "itoa-map"])
            rows.append([SHAPES[shape], f"{int(entries):,}", f"{ours:.1f}", f"{ours / nameless:.2f}", f"{by_map:.1f}"])
    heads = ["pointers", "entries", "the library, ns for each event", "times the listing without names", "Rust with itoa, names in a map"]
    return table(heads, rows, words=1)


def lengths(growth, counts):
    found = {(job, competitor): count for job, competitor, count, _ in counts}
    rows = []
    for digits in DIGITS:
        job = f"digits-{digits}"
        names = [OURS, "itoa", "serde"]
        times = [f"{growth[job][name][0]:.1f}" for name in names]
        rows.append([digits, *times, *(found.get((job, name), "") for name in names)])
    competitors = ["the library", "Rust with itoa", "with serde_json"]
    heads = ["digits", *(f"{name}, ns" for name in competitors), *(f"{name}, instructions" for name in competitors)]
    return table(heads, rows, words=0)


def in_node(times):
    """What a page can have: the module, and beside it plain JavaScript and the archive."""
    rows = []
    for job, row in times.items():
        if MODULE in row:
            module, ours = row[MODULE][0], row[OURS][0]
            by_hand = min(row[name][0] for name in ["node-template", "node-stringify", "node-plain"] if name in row)
            rows.append([JOBS[job], *map(time_text, [module, by_hand, ours]), *map(ratio_text, [by_hand / module, module / ours])])
    heads = ["job", "the module", "plain JavaScript, the faster way", "the archive for C", "plain JavaScript / the module", "the module / the archive"]
    return table(heads, rows, words=1)


def machine(path):
    return "\n".join(f"- {line}" for line in path.read_text().splitlines())


def put(text, name, part):
    """What stands between the two marks of that name is replaced."""
    marks = re.compile(rf"(<!-- {name}: written by bench/run -->\n).*?(<!-- end of {name} -->)", re.DOTALL)
    text, count = marks.subn(lambda found: f"{found[1]}{part}\n{found[2]}", text)
    if count != 1:
        sys.exit(f"report: the marks of {name} are missing")
    return text


def main():
    results, document = map(pathlib.Path, sys.argv[1:])
    times, growth = read(results / "times"), read(results / "growth")
    counts = counted(results / "instructions")
    parts = {
        "machine": machine(results / "machine"),
        "goals": goals(times | growth),
        "instructions": instructions(counts),
        "events": event_growth(growth),
        "entries": entry_growth(growth),
        "shapes": shapes(growth),
        "filed events": filed_event_growth(growth),
        "records": record_growth(growth),
        "lengths": lengths(growth, counts),
        "node": in_node(times),
        "times": all_times(times),
    }
    text = document.read_text()
    for name, part in parts.items():
        text = put(text, name, part)
    document.write_text(text)


main()

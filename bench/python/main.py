"""main.py FOLDER JOB WAY prints the answer to a job on the folder's dumps; with ROUNDS behind, the best and the median nanoseconds."""
import pathlib
import sys
import time
from collections import namedtuple

import with_format
import with_json
from dumps import check, formatted, record
from fixed_numbers import fixed_numbers

WAYS = {"format": with_format, "json": with_json}
RECORDED = 1000000

# A call, the calls in a row that are timed, the parts of a call whose time is told, and its answer as bytes.
Job = namedtuple("Job", "call calls parts answer")


def listing_job(folder, name, way):
    dump = (folder / f"{name}.dump").read_bytes()
    rate, unit, serial = map(int, (folder / f"{name}.reading").read_text().split())
    listing = WAYS[way].listing
    return Job(lambda: listing(dump, rate, unit, serial), 1, 1, str.encode)


def check_job(folder):
    dump = (folder / "full.dump").read_bytes()
    return Job(lambda: len(check(dump)[2]), 2, 1, lambda events: b"%d\n" % events)


def recorded():
    dump = formatted(65536)
    for stamp in range(RECORDED):
        record(dump, 0x20001000, 16, 5, stamp, 1, 2, 3, 4)
    return dump


def numbers_job():
    numbers = fixed_numbers()
    printed = with_format.printed
    return Job(lambda: "\n".join(map(printed, numbers)), 2, len(numbers), lambda text: f"{text}\n".encode())


def job_of(folder, name, way):
    if name.startswith("listing-"):
        return listing_job(folder, name.removeprefix("listing-"), way)
    if name == "check":
        return check_job(folder)
    if name == "record":
        return Job(recorded, 1, RECORDED, bytes)
    return numbers_job()


def timed(job):
    begin = time.perf_counter_ns()
    for _ in range(job.calls):
        job.call()
    return (time.perf_counter_ns() - begin) / job.calls / job.parts


def main():
    folder, name, way, *rounds = sys.argv[1:]
    job = job_of(pathlib.Path(folder), name, way)
    if not rounds:
        sys.stdout.buffer.write(job.answer(job.call()))
        return
    times = sorted(timed(job) for _ in range(int(rounds[0])))
    print(f"{name} python-{way} {times[0]:.2f} {times[len(times) // 2]:.2f}")


main()

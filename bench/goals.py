"""What we aim at: a competitor's time divided by ours is at least so much."""
from titles import DIGITS, SHAPED_ENTRIES, SHAPES

TEXT_JOBS = ["listing-full", "listing-names", "numbers"]
TEXT_GOALS = {
    "itoa": 1,
    "itoa-map": 1,
    "serde": 2,
    "node-template": 5,
    "node-stringify": 5,
    "python-format": 100,
    "python-json": 100,
}
# Numbers alone have no names, and node and Python print them in one way.
LISTING_ONLY = {"itoa-map", "node-stringify", "python-json"}

GOALS = [
    (job, competitor, goal)
    for job in TEXT_JOBS
    for competitor, goal in TEXT_GOALS.items()
    if job != "numbers" or competitor not in LISTING_ONLY
]
# With a name file a listing is not slower than where all names go into maps.
GOALS += [("listing-filed", "itoa-map", 1)]
# No number is slower than with itoa, whatever its length.
GOALS += [(f"digits-{digits}", "itoa", 1) for digits in DIGITS]
# However the pointers lie, names make a listing take at most three times as long; crowded ones are only shown.
GOALS += [
    (f"shape-{shape}-{entries}", "lepsaino-nameless", 1 / 3)
    for shape in SHAPES
    if shape != "crowded"
    for entries in SHAPED_ENTRIES
]
# The check takes at most twice the time of reading the bytes once, in either way of reading them.
GOALS += [("check", "sum", 0.5), ("check", "copy", 0.5)]
# No check is slower than Rust by hand.
CHECKS = ["check", "check-big", "check-entries", "check-refused-last", "check-refused-first"]
GOALS += [(job, "plain", 1) for job in CHECKS]
# A check in pieces takes at most ten times as long as that of the whole dump, and a hundred times where each piece is one byte.
GOALS += [("pieces-1024", "lepsaino-whole", 0.1), ("pieces-1", "lepsaino-whole", 0.01)]
# Recording takes at most one and a half times the time of Rust behind a call, as the library is.
GOALS += [(job, "plain-call", 1 / 1.5) for job in ["record", "record-big"]]

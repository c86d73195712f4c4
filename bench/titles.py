"""What the jobs and the competitors are called in the tables."""

JOBS = {
    "listing-full": "listing, 2,046 events, no entries",
    "listing-big": "listing, 2,046 events, no entries, big-endian",
    "listing-exact": "listing, 2,046 events, no entries, no room to spare",
    "listing-names": "listing, 1,446 events, 400 names",
    "listing-gone": "listing, 1,446 events, 400 names of removed threads",
    "listing-filed": "listing, 1,446 events, 400 names, a name file of 1,500 records",
    "check": "checking the full dump",
    "check-big": "checking the full dump, big-endian",
    "check-entries": "checking 1,109 events, 1,500 entries",
    "check-refused-last": "refusing the full dump, no id in its last slot",
    "check-refused-first": "refusing the full dump, no id in its first slot",
    "pieces-1024": "checking the full dump in pieces of 1,024 bytes",
    "pieces-1": "checking the full dump in pieces of one byte",
    "find-last": "finding the last of 1,500 names",
    "record": "recording one event",
    "record-big": "recording one event, big-endian",
    "mend": "mending the full dump",
    "mend-packed": "mending the full dump, no id in its last slot",
    "mend-cut": "mending half of the full dump",
    "mend-entries": "mending 1,109 events, 1,500 entries",
    "numbers": "printing one number",
}

SHAPES = {
    "irregular": "at irregular distances",
    "drawn": "drawn by chance",
    "256": "256 bytes apart",
    "4096": "4,096 bytes apart",
    "65536": "65,536 bytes apart",
    "crowded": "at one place of the index",
}
SHAPED_ENTRIES = [400, 1500]

JOBS |= {
    f"shape-{shape}-{entries}": f"listing, 500 events, {entries:,} names, pointers {title}"
    for shape, title in SHAPES.items()
    for entries in SHAPED_ENTRIES
}

DIGITS = range(1, 21)
JOBS |= {f"digits-{digits}": f"printing one number of {digits} digit{'s' if digits > 1 else ''}" for digits in DIGITS}

COMPETITORS = {
    "lepsaino": "the library",
    "lepsaino-nameless": "the library without names",
    "lepsaino-fileless": "the library without the name file",
    "lepsaino-plenty": "the library with plenty of room",
    "lepsaino-whole": "the library with the whole dump",
    "itoa": "Rust with itoa",
    "itoa-map": "Rust with itoa, names in a map",
    "serde": "Rust with serde_json",
    "peer": "the peer, in Rust",
    "plain": "Rust by hand",
    "plain-call": "Rust by hand, not inlined",
    "plain-value": "Rust by hand, not inlined, its state by value",
    "sum": "adding up the bytes",
    "copy": "copying the bytes",
    "node-template": "node, template literals",
    "node-stringify": "node, JSON.stringify",
    "node-plain": "node",
    "node-module": "node, the library's module",
    "python-format": "Python, f-strings",
    "python-json": "Python, json",
    "python-plain": "Python",
}

#!/usr/bin/env python3
"""hostile_reports.py PROGRAM: the peak memory of a check whose report is hostile, over the bytes of the report.

The reports are of the example of mutual exclusion, and none of them is its own: they are nothing but line feeds, or lines
that are of a report for as long as they go on. Printed are for each its bytes, how the check ends, and the ratio."""
import os
import sys
import tempfile

import peak

EXAMPLE = os.path.join(os.path.dirname(os.path.abspath(__file__)), "..", "examples", "mutual-exclusion")
MEBIBYTE, GREATEST = 1 << 20, 1 << 28
SESSION = b"session 2 processes 4 events 0 messages\n"
PATH = SESSION + b"broken possibly no\nbroken definitely no "
# What a report begins with, what is repeated then, what it ends with, and how long it is.
REPORTS = {
    "line feeds": (b"", b"\n", b"", 16 * MEBIBYTE),
    "line feeds, the greatest": (b"", b"\n", b"", GREATEST),
    "one line with no end, the greatest": (b"", b"x", b"", GREATEST),
    "one byte too long": (b"", b"x", b"", GREATEST + 1),
    "a cycle whose last event is none": (b"refused cycle ", b"a#1,", b"#1\n", 16 * MEBIBYTE),
    "a cycle whose last event is none, the greatest": (b"refused cycle ", b"a#1,", b"#1\n", GREATEST),
    "a session's line, then line feeds": (SESSION, b"\n", b"", GREATEST),
    "a refusal, then line feeds": (b"refused streams\n", b"\n", b"", GREATEST),
    "a lawful cut with no line after it": (SESSION + b"broken possibly yes ", b"1,", b"1\n", 16 * MEBIBYTE),
    "a lawful cycle": (b"refused cycle ", b"a#1,", b"a#1\n", 16 * MEBIBYTE),
    "a lawful path": (PATH, b"a,", b"a\n", 16 * MEBIBYTE),
    "a path whose last name is none": (PATH, b"a,", b"1\n", 16 * MEBIBYTE),
}


def write(path, first, repeated, last, size):
    """Writes a report of no more than this many bytes, and gives how many it has."""
    count = (size - len(first) - len(last)) // len(repeated)
    with open(path, "wb") as out:
        out.write(first)
        while count:
            some = min(count, MEBIBYTE)
            out.write(repeated * some)
            count -= some
        out.write(last)
    return os.path.getsize(path)


def main():
    spec, left, right = (os.path.join(EXAMPLE, name) for name in ("session.json", "left.stream", "right.stream"))
    with tempfile.TemporaryDirectory() as folder:
        report = os.path.join(folder, "report")
        for name, parts in REPORTS.items():
            size = write(report, *parts)
            status, found, _, memory = peak.run([os.path.abspath(sys.argv[1]), "check", spec, report, left, right])
            first = found.split(b"\n")[0].decode()
            print(f"{name}: {size:,} bytes, status {status} {first}, {memory / size:.3f} of its bytes", flush=True)


main()

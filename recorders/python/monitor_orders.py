#!/usr/bin/env python3
"""Says how many different orders recorded runs have, and names one run of each:

    python3 monitor_orders.py RUN..

Each RUN is a folder as `monitor test` takes it: session.json, and NAME.stream of each process NAME. Two runs have one
order if their documents are the same bytes, and the events that change what a predicate can see of their process are
the same, with the same values of named variables and the same order of happened-before. Other events and the ids of
messages don't count. So the answers are the same, where they are known, and of many runs that fail it is enough to look
at one of each order.

A line is written for each order, `COUNT RUN`: how many runs have it, and the first of them; the most frequent one
first. Then comes a line for each run that can't be read or is refused, `- RUN: WHY`, and last the sum. The status is 0,
or 1 if there is such a run."""
import collections
import os
import sys
import tempfile

from importing import Refused
from long_document import read_document
from monitor_reduce import Reduction, joined

# What a session may have; of a run beyond that `monitor test` says another thing than of one within.
EVENT_LIMIT, STREAM_BYTE_LIMIT, ID_BYTE_LIMIT = 10_000, 16_777_216, 64


class Order:
    """Takes what is seen of a run: of each process that is kept the values after each of its events, with the clock."""

    def __init__(self, count):
        self.events = [[] for _ in range(count)]

    def add(self, kept, event):
        self.events[kept].append((event.values, event.clock))

    def write_windows(self):
        """Nothing is written: an order has no windows."""

    def finish(self):
        """Nothing is left to write."""

    def key(self):
        return tuple(map(tuple, self.events))


class WithinLimits(Reduction):
    """The pass over a run, which is refused if it is no session."""

    def send(self, stream, message):
        super().send(stream, message)
        if len(message.encode()) > ID_BYTE_LIMIT:
            raise stream.refused(stream.line_of(stream.at), f"the id has over {ID_BYTE_LIMIT} bytes")


def order_of(run, folder):
    """What runs of the same order have in common with this one."""
    path = os.path.join(run, "session.json")
    document = read_document(path)
    paths = [os.path.join(run, f"{name}.stream") for name in document.variables]
    for each in paths:
        if os.path.isfile(each) and os.path.getsize(each) > STREAM_BYTE_LIMIT:
            raise Refused(f"{each}: it has over {STREAM_BYTE_LIMIT:,} bytes")
    streams = joined(paths, document)
    for stream in streams:
        stream.begin(document.variables[stream.process], (0,) * len(document.kept))
    for number, name in enumerate(document.kept):
        next(it for it in streams if it.process == name).keep(number, document.comparisons)
    order = Order(len(document.kept))
    WithinLimits(document, streams, order, folder).run()
    for stream in streams:
        if stream.before + stream.at > EVENT_LIMIT:
            raise Refused(f"{stream.path}: it has over {EVENT_LIMIT:,} events")
    with open(path, "rb") as file:
        return file.read(), order.key()


def main(runs):
    if not runs or runs[0].startswith("-"):
        print(__doc__, file=sys.stdout if runs and runs[0] in ("-h", "--help") else sys.stderr)
        return 0 if runs and runs[0] in ("-h", "--help") else 2
    found, unread = collections.defaultdict(list), []
    with tempfile.TemporaryDirectory() as folder:
        for run in runs:
            try:
                found[order_of(run, folder)].append(run)
            except (Refused, OSError) as error:
                unread.append(f"- {run}: {error}")
    orders, count = len(found), sum(map(len, found.values()))
    lines = [f"{len(same)} {same[0]}" for same in sorted(found.values(), key=lambda it: -len(it))] + unread
    lines.append(f"{orders} different order{'s' * (orders != 1)} in {count} run{'s' * (count != 1)}")
    print("\n".join(lines))
    return 1 if unread else 0


if __name__ == "__main__":
    sys.exit(main(sys.argv[1:]))

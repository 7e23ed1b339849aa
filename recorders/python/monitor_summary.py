#!/usr/bin/env python3
"""Joins what calls of `monitor test` wrote, each of some of the runs, into what one call of all of them writes:

    python3 monitor_summary.py PART..     # or all parts, one after the other, on the standard input

The runs keep their order. One line is left out, that of how many orders the runs have: the parts don't say it.
The status is that of one call; it is 2, and nothing is written, if a part is cut short."""
import fileinput
import re
import sys

NUMBERS = re.compile(rb"runs: (\d+), pass: (\d+), fail: (\d+), not judged: (\d+)\n")
# What stands at the end of a part. No line of a run is such a line.
ORDERS = re.compile(rb"orders: \d+\n")


def again(runs):
    """The lines of the first five runs that don't pass, as they stand after the numbers."""
    return [b"  " + run for run in runs if not run.endswith(b": pass\n")][:5]


def joined(lines):
    """The lines of the runs of all parts, and the four numbers, added up. A ValueError says which part is cut short."""
    runs, sums, begin, last, lines = [], [0, 0, 0, 0], 0, None, iter(lines)
    for line in lines:
        if last and ORDERS.fullmatch(line):
            last = None
        elif not (last := NUMBERS.fullmatch(line)):
            runs.append(line)
        elif int(last[1]) != len(runs) - begin or any(next(lines, b"") != shown for shown in again(runs[begin:])):
            raise ValueError(f"the part that begins with run {begin + 1} is cut short")
        else:
            sums, begin = [one + int(other) for one, other in zip(sums, last.groups())], len(runs)
    if begin < len(runs):
        raise ValueError("the last part has no line with the numbers of its runs")
    return runs, sums


if __name__ == "__main__":
    try:
        RUNS, SUMS = joined(fileinput.input(mode="rb"))
    except (OSError, ValueError) as error:
        sys.exit(print(f"monitor_summary: {error}", file=sys.stderr) or 2)
    sys.stdout.buffer.writelines([*RUNS, b"runs: %d, pass: %d, fail: %d, not judged: %d\n" % (*SUMS,), *again(RUNS)])
    sys.exit(5 if SUMS[2] else 1 if SUMS[3] else 0)

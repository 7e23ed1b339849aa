#!/usr/bin/env python3
"""verdict.py LOG: keeps what `rt ci` said of the program, beside it, for the packages.

LOG is what `rt ci` printed. crates/monitor/out/monitor.verdict then has the program's sum, the last line of `rt ci`, and the
verdict on the program, or that an earlier run on this machine proved it.
"""
import hashlib
import os
import re
import sys

sys.dont_write_bytecode = True
import axioms  # noqa: E402

PROGRAM = os.path.join(axioms.ROOT, "crates", "monitor", "out", "monitor")


def sum_of(program):
    with open(program, "rb") as file:
        return hashlib.sha256(file.read()).hexdigest()


def keep(program, log):
    """Keeps the verdict of a log beside the program."""
    last = re.findall(r"^\d+ passed, \d+ failed.*$", log, re.M)[-1]
    found = axioms.VERDICT.search(axioms.part_of(log))
    said = found[0] if found else "kept: an earlier run on the machine proved this program of these sources"
    with open(f"{program}.verdict", "w", encoding="utf-8") as file:
        file.write(f"{sum_of(program)}\n{last}\n{said}\n")


def kept(program):
    """The lines of the verdict that is kept of this program, if there is one."""
    try:
        with open(f"{program}.verdict", encoding="utf-8") as file:
            sum_, *lines = file.read().splitlines()
    except OSError:
        return None
    return lines if sum_ == sum_of(program) else None


if __name__ == "__main__":
    with open(sys.argv[1], encoding="utf-8", errors="replace") as file:
        keep(PROGRAM, file.read())
